//! The groups of cases on the decoder with a sliding window.
//!
//! - `rows`: windows over frames under K, by hand
//! - `windows`: frames with few and with far too many wrong bits, windows of every kind beside the whole-frame decoder
//! - `few_wrong`: frames with at most t wrong bits a word
//! - `refusals`: every refusal at its edge, and each rule before those that come after it
//! - `long`: as many groups as the widest window has, one more and one fewer; 4,096 blocks; words of many bits

use super::*;

/// The windows to try on a frame: "V 1, 2, G - 1, G, G + 1, 64", and the two at the edges of rule 18.
fn widths(blocks: usize) -> Vec<u64> {
    let g = groups(blocks) as u64;
    let mut widths = vec![1, 2, g - 1, g, g + 1, 64, 0, 65];
    widths.sort();
    widths.dedup();
    widths
}

/// Frames of four blocks under K, all but the last two rows those of document 01's example. A clean frame takes a round at each position.
/// In the last two rows the row word of group 1 needs a bit of B0, and its column word turns B2, which the row word of group 2 turns back: the
/// whole-frame decoder goes on with that until its rounds are made, and a window of one group does not come back to group 1.
pub fn rows(case: &mut Case) {
    let sent = ([0, 1, 0, 0], [0, 0, 0, 1, 0, 1, 1, 0, 0, 0, 0, 1, 0, 0, 1, 1]);
    let first = ([0, 1, 0, 0], [0, 0, 0, 1, 0, 1, 1, 1, 0, 0, 0, 1, 0, 0, 1, 1]);
    let second = ([0, 1, 0, 0], [0, 0, 0, 1, 0, 1, 1, 0, 0, 0, 0, 1, 0, 0, 1, 0]);
    let unsent = ([0, 0, 0, 0], [0, 0, 0, 0, 0, 1, 0, 1, 0, 0, 0, 0, 0, 0, 0, 0]);
    for (received, rounds, by_one, by_two, restored) in [
        (sent, 0, (2, 0, 0, 0), (1, 0, 0, 0), true),
        (sent, 1, (2, 0, 0, 0), (1, 0, 0, 0), true),
        (first, 0, (3, 1, 0, 0), (2, 1, 0, 0), true),
        (first, 1, (2, 1, 0, 0), (1, 1, 0, 0), true),
        (second, 0, (3, 1, 0, 0), (2, 1, 0, 0), true),
        (unsent, 0, (4, 0, 2, 0), (12, 0, 2, 1), false),
        (unsent, 1, (2, 0, 2, 0), (1, 0, 2, 1), false),
    ] {
        let lent = Lent { rounds, ..Lent::new(&kit_k(), 4, received.0.to_vec(), received.1.to_vec()) };
        let left = if restored { sent } else { received };
        for (window, counts) in [(1, by_one), (2, by_two), (3, by_two), (64, by_two)] {
            let (rounds, turned, outside, stuck) = counts;
            let found = case.decode_window(&Lent { window, ..lent.clone() });
            let counts = Counts { rounds, turned, outside, stuck };
            case.same("a window over a frame under K", Ok((left.0.to_vec(), left.1.to_vec(), counts)), found);
        }
        for window in [0, 65] {
            let found = case.decode_window(&Lent { window, ..lent.clone() });
            case.same("a window that is none", Err((18, window)), found);
        }
        case.decode(&lent);
    }
}

/// What a decode leaves in information and redundancy, and what it counts.
type Decoded = (Vec<u8>, Vec<u8>, Counts);

/// A frame by each width, and what holds for all of them: "If V is at least G, bits and counts are those of the whole-frame decoder. [..]
/// Rounds are summed over positions and never exceed positions times the allowed number." The answer is what the whole-frame
/// decoder makes of the frame, and what each width does.
fn by_widths(case: &mut Case, lent: &Lent, widths: &[u64]) -> (Decoded, Vec<(u64, Decoded)>) {
    let blocks = lent.blocks as usize;
    let whole = decode(&lent.received(), lent.rounds, lent.decoder_work).unwrap();
    case.decode(lent);
    let mut all = vec![];
    for &window in widths {
        let found = case.decode_window(&Lent { window, ..lent.clone() });
        if window == 0 || window > 64 {
            case.same("refused", Err((18, window)), found);
            continue;
        }
        let found = found.unwrap();
        let (positions, rounds) = (last_position(blocks, window), found.2.rounds);
        case.check("rounds", positions <= rounds && rounds <= positions * allowed(lent.rounds));
        if window >= groups(blocks) as u64 {
            case.same("the whole-frame decoder's bits and counts", &whole, &found);
        }
        all.push((window, found));
    }
    (whole, all)
}

/// What a window that slides does on its way.
fn by_positions(case: &mut Case, lent: &Lent, left: &[u8], counts: Counts) {
    let d = design(lent.m, lent.t, lent.size).unwrap();
    let blocks = lent.blocks as usize;
    let shape = Shape::new(d, blocks, entries(&lent.own), entries(&lent.parity));
    let (last, limit) = (last_position(blocks, lent.window), allowed(lent.rounds));
    let outside = |groups| shape.words_of(groups).iter().filter(|word| check_word(&shape, word, |place| left[place]) != 0).count() as u64;
    let held = held(blocks, lent.window, last);
    let (passed, at_last) = (outside(1..=held.start() - 1), outside(held));
    case.same("words outside", passed + at_last, counts.outside);
    let places = at_positions(&lent.received(), lent.rounds, lent.window, lent.decoder_work).unwrap();
    case.same("positions", last, places.len() as u64);
    let (made, turns) = *places.last().unwrap();
    if made < limit {
        case.same("stuck in an idle round at the last position", at_last, counts.stuck);
    }
    case.meets("words outside that the last position does not hold", passed > 0);
    case.meets("stuck words at the last position, all rounds made there", counts.stuck > 0 && made == limit && turns > 0);
    case.meets("an idle position before one that turns bits", places.iter().position(|&(_, turns)| turns == 0).is_some_and(|idle| places[idle..].iter().any(|&(_, turns)| turns > 0)));
    case.meets("all rounds made at a position before the last, fewer at the last", places.iter().any(|&(made, _)| made == limit) && made < limit);
    case.meets("all rounds made at every position, more than one", limit > 1 && counts.rounds == last * limit);
    case.meets("bits turned, and turned back at another position", places.iter().map(|&(_, turns)| turns).sum::<u64>() > counts.turned);
}

/// Frames of 1 to 12 blocks, odd and even, with one wrong bit in 500 to one in 3, all ones, and any bits at all.
pub fn windows(case: &mut Case) {
    let all = designs(60);
    let good = case.context.kit(all[case.index % all.len()]);
    let blocks = 1 + case.rng.below(12);
    let mut lent = case.frame(&good, blocks);
    lent.rounds = case.rng.pick(&[0, 0, 1, 2, 3, 64]);
    match case.index / all.len() {
        0 => {}
        1 => (lent.info, lent.red) = (case.rng.bits(lent.info.len()), case.rng.bits(lent.red.len())),
        2 => (lent.info, lent.red) = (vec![1; lent.info.len()], vec![1; lent.red.len()]),
        kind => {
            let odds = [500, 100, 60, 40, 30, 20, 15, 12, 10, 8, 6, 5, 4, 3][kind - 3];
            case.turn_bits(&mut lent, odds);
        }
    }
    let (whole, all) = by_widths(case, &lent, &widths(blocks));
    let g = groups(blocks) as u64;
    for (window, (info, red, counts)) in all {
        let same_bits = (&whole.0, &whole.1) == (&info, &red);
        case.meets("a window as wide as the frame", window == g);
        case.meets("a window wider than the frame", window > g);
        case.meets("other bits than the whole-frame decoder's, an even number of blocks", !same_bits && blocks % 2 == 0);
        case.meets("other bits than the whole-frame decoder's, an odd number of blocks", !same_bits && blocks % 2 == 1);
        case.meets("the same bits, another number of stuck words", same_bits && whole.2.stuck != counts.stuck);
        case.meets("more words outside than the whole-frame decoder leaves", whole.2.outside < counts.outside);
        case.meets("fewer words outside than the whole-frame decoder leaves", whole.2.outside > counts.outside);
        if window < g {
            by_positions(case, &Lent { window, ..lent.clone() }, &[info, red].concat(), counts);
        }
    }
}

/// "A copy with at most t wrong bits in each word comes back as sent for every V": every width up to G + 1, one round and more. The bits
/// that differ are then the link's wrong ones, and no word is outside or stuck.
pub fn few_wrong(case: &mut Case) {
    let all = designs(400);
    let good = case.context.kit(all[case.index % all.len()]);
    let blocks = 1 + case.rng.below(if good.d.order() > 60 { 6 } else { 11 });
    let sent = case.frame(&good, blocks);
    let shape = Shape::new(good.d, blocks, entries(&sent.own), entries(&sent.parity));
    let count = sent.info.len() + sent.red.len();
    let tries = [3, 10 * good.d.side(), 10 + count.min(2000)][case.index / all.len()];
    let mut lent = Lent { rounds: case.rng.pick(&[0, 1, 2, 64]), ..sent.clone() };
    let places = groups::within(&mut case.rng, &shape, tries);
    places.iter().for_each(|&place| lent.turn(place));
    let g = groups(blocks) as u64;
    for window in (1..=g + 1).chain([63, 64]) {
        let found = case.decode_window(&Lent { window, ..lent.clone() }).map(|(info, red, counts)| (info, red, counts.turned, counts.outside, counts.stuck));
        case.same("as sent", Ok((sent.info.clone(), sent.red.clone(), places.len() as u64, 0, 0)), found);
        case.meets("wrong bits in a frame of several positions", !places.is_empty() && window < g);
    }
}

/// Rule 18 at its edges beside every other refusal: 1 to 5 come before it, 6, 7 and 10 after it.
pub fn refusals(case: &mut Case) {
    let good = case.small();
    let blocks = 1 + case.index % 4;
    let mut right = case.frame(&good, blocks);
    case.turn_bits(&mut right, 30);
    let (order, info) = (good.d.order() as u64, right.info.len() as u64);
    let last = info + right.red.len() as u64 - 1;
    let refused = |case: &mut Case, lent: &Lent, refusal: Refusal| {
        let found = case.decode_window(lent);
        case.same("refused", Err(refusal), found);
    };
    let wrong: [(fn(&mut Lent), Refusal); 17] = [
        (|l| l.m = 11, (1, 1)),
        (|l| l.t = 0, (1, 2)),
        (|l| l.size = 501, (1, 3)),
        (|l| (l.m, l.t, l.size) = (4, 1, 4), (2, 16)),
        (|l| (l.m, l.t, l.size) = (10, 2, 205), (3, 4100)),
        (|l| l.blocks = 0, (4, 0)),
        (|l| l.blocks = 4097, (4, 4097)),
        (|l| l.rounds = 65, (5, 65)),
        (|l| l.rounds = u64::MAX, (5, u64::MAX)),
        (|l| l.own.push(0), (6, 1)),
        (|l| l.parity.truncate(l.parity.len() - 1), (6, 2)),
        (|l| l.info.truncate(l.info.len() - 1), (6, 4)),
        (|l| l.red.push(0), (6, 5)),
        (|l| l.decoder_work -= 1, (6, 6)),
        (|l| l.parity[1] = 255, (7, order)),
        (|l| l.info.last_mut().into_iter().for_each(|byte| *byte = 2), (10, info - 1)),
        (|l| *l.red.last_mut().unwrap() = 255, (10, last)),
    ];
    for (at, (spoil, refusal)) in wrong.iter().enumerate() {
        let mut one = right.clone();
        spoil(&mut one);
        for window in [1, 2, 64] {
            refused(case, &Lent { window, ..one.clone() }, *refusal);
        }
        for window in [0, 65, 66, 1 << 32, (1 << 32) + 1, 1 << 63, u64::MAX] {
            refused(case, &Lent { window, ..one.clone() }, if refusal.0 <= 5 { *refusal } else { (18, window) });
        }
        // beside each one that comes later, but for a slice that another design would measure
        for (second, (also, _)) in wrong.iter().enumerate().skip(at + 1) {
            if refusal.0 <= 3 && second <= 4 || refusal.0 == 4 && second <= 6 || refusal.0 == 5 && second == 8 {
                continue;
            }
            let mut two = one.clone();
            also(&mut two);
            for window in [64, 65] {
                refused(case, &Lent { window, ..two.clone() }, if refusal.0 <= 5 || window == 64 { *refusal } else { (18, window) });
            }
        }
    }
    for rounds in [0, 1, 63, 64] {
        for window in [1, 2, 63, 64] {
            let found = case.decode_window(&Lent { rounds, window, ..right.clone() });
            case.check("accepted", found.is_ok());
        }
        for window in [0, 65] {
            refused(case, &Lent { rounds, window, ..right.clone() }, (18, window));
        }
    }
    for work in [right.word_work, right.kit_work, right.loopback_work, right.decoder_work + 1, 0] {
        if work != right.decoder_work {
            refused(case, &Lent { decoder_work: work, ..right.clone() }, (6, 6));
        }
    }
    // a report of another length is refused at place 8, behind rule 18, and frame and report are left
    for extra in [-40, -1, 1, 280] {
        case.answer_extra = extra;
        let _ = case.decode_window(&right);
        let _ = case.decode_window(&Lent { window: 0, ..right.clone() });
    }
    case.answer_extra = 0;
}

/// 63 to 65 groups, odd and even, under small kits; 4,095 and 4,096 blocks under kits with M 1; words of many bits, under lists that need
/// no inverse. All with too many wrong bits.
pub fn long(case: &mut Case) {
    let (mut lent, widths) = match case.index {
        at @ 0..=5 => {
            let good = case.small();
            (case.frame(&good, 125 + at), vec![1, 63, 64, 65])
        }
        at @ 6..=7 => {
            let (m, t) = pairs()[case.rng.below(18)];
            let good = case.context.kit(design(m, t, 1).unwrap());
            (case.frame(&good, 4096 - at % 2), vec![1, 5, 64])
        }
        at => {
            let (m, t, size) = [(8, 3, 72), (10, 2, 204), (10, 1, 409), (7, 3, 42)][at - 8];
            (groups::unencoded(case, design(m, t, size).unwrap(), 5 + at % 2), vec![1, 2, 3])
        }
    };
    let odds = case.rng.pick(&[15, 30, 60, 150]);
    case.turn_bits(&mut lent, odds);
    let (whole, all) = by_widths(case, &lent, &widths);
    for (window, found) in all {
        case.meets("64 groups and a window of 64", window == 64 && groups(lent.blocks as usize) == 64);
        case.meets("65 groups and a window of 64", window == 64 && groups(lent.blocks as usize) == 65);
        case.meets("other bits than the whole-frame decoder's", (&whole.0, &whole.1) != (&found.0, &found.1));
    }
}

/// How many cases `long` has.
pub const LONG: usize = 12;

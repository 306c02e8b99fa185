//! The groups of cases. Each is a name, its number of cases and a function that runs the case of a given
//! index; what is random in a case comes from the seed, the group's name and the index alone.

use super::*;
use std::collections::HashSet;

pub type Group = (&'static str, fn() -> usize, fn(&mut Case));

pub const GROUPS: &[Group] = &[
    ("published", || 21, published),
    ("rows-of-k", || 1, rows_of_k),
    ("self", || designs(400).len(), reference_alone),
    ("reads", || 6 * designs(400).len(), reads),
    ("nearest", || 4, nearest),
    ("dependent", || 400, dependent),
    ("design", || 13 * 5, design_rules),
    ("sizes", || 13 * 5, every_size),
    ("reports", || 24, reports),
    ("kits", || 4 * designs(1000).len(), kits),
    ("inverses", || 2 * designs(400).len(), inverses),
    ("inverse-everywhere", || designs(40).len(), inverse_everywhere),
    ("lists", || 10 * designs(4096).len(), lists),
    ("lengths", || designs(60).len(), lengths),
    ("bits", || 2 * designs(60).len(), bits_above_one),
    ("huge", || 3 * NUMBERS.len(), huge),
    ("batches", || FRAMES.len() * designs(60).len(), batches),
    ("received", || 14 * designs(4096).len(), received_frames),
    ("eights", || 2 * EIGHTS.len(), eights),
    ("rounds", || 200, rounds),
    ("second-kit", || 1, rows_of_second_kit),
    ("noise", || 12 * designs(60).len(), noise),
    ("show", || 2 * designs(60).len(), showing),
    ("loopback", || 8 * designs(60).len(), loopbacks),
    ("window-rows", || 1, window::rows),
    ("window", || 17 * designs(60).len(), window::windows),
    ("window-few", || 3 * designs(400).len(), window::few_wrong),
    ("window-refusals", || 24, window::refusals),
    ("window-long", || window::LONG, window::long),
    ("original-rows", || 1, original_cases::rows),
    ("original-design", || 13 * 5, original_cases::design_rules),
    ("original", || 5 * original_cases::original_designs(40).len(), original_cases::frames),
    ("original-bytes", || 4, original_cases::bytes),
    ("original-few", || 6 * original_cases::original_designs(40).len(), original_cases::few_wrong),
    ("original-noise", || 20 * original_cases::original_designs(40).len(), original_cases::noise),
    ("original-refusals", || 20, original_cases::refusals),
    ("original-large", || original_cases::LARGE, original_cases::large),
    ("tally-rows", || 1, tally::rows),
    ("tally", || 200, tally::lists_of_decodes),
    ("tally-full", || 6, tally::full),
    ("report", || 64, tally::reports),
    ("load-rows", || 1, load_rows),
    ("load", || 4 * designs(400).len(), loads),
    ("makers", || LISTS * designs(400).len(), makers),
    ("spread", || 13 * 5, spread),
    ("meetings", || 2 * designs(4096).len(), meetings),
    ("mixed", || 13 * 5, mixed_seeds),
    ("mixed-meetings", || 4 * wide_designs().len(), mixed_meetings),
    ("writers", || 600, writers),
    ("answers", || 40, answers),
    ("many-blocks", || 6, many_blocks),
    ("kit-text-everywhere", || 340, kit_text_everywhere),
    ("block-text-everywhere", || 165, block_text_everywhere),
    ("list-text-everywhere", || 110, list_text_everywhere),
    ("kit-text", || 600, kit_texts),
    ("block-text", || 600, block_texts),
    ("frame-text", || 600, frame_texts),
    ("lines", || 300, lines),
    ("frame", || 1500, |case| program(case, false, false)),
    ("mend", || 1500, |case| program(case, true, false)),
    ("makekits", || 1500, |case| makekit(case, false)),
    ("large", || 2 * large_designs().len() + 4, large),
    ("program-frame", || 800, |case| program(case, false, true)),
    ("program-mend", || 800, |case| program(case, true, true)),
    ("program-makekit", || 800, |case| makekit(case, true)),
];

// ---------------------------------------------------------------- Published generators and document 01's rows

/// Generators in octal for m 4 to 10 and t 1 to 3, after the tables of Peterson and of Lin and Costello;
/// that of m 10, t 3 is left out (0) and made of the minimal polynomials below.
const GENERATORS: [[u64; 3]; 7] = [
    [0o23, 0o721, 0o2467],
    [0o45, 0o3551, 0o107657],
    [0o103, 0o12471, 0o1701317],
    [0o211, 0o41567, 0o11554743],
    [0o435, 0o267543, 0o156720665],
    [0o1021, 0o1112711, 0o1530225571],
    [0o2011, 0o4014167, 0],
];

/// Minimal polynomials in octal of powers 1, 3 and 5 of the root for m 4 to 10, after Peterson's table of
/// irreducible polynomials.
const MINIMAL: [[u64; 3]; 7] = [
    [0o23, 0o37, 0o7],
    [0o45, 0o75, 0o67],
    [0o103, 0o127, 0o147],
    [0o211, 0o217, 0o235],
    [0o435, 0o567, 0o763],
    [0o1021, 0o1131, 0o1461],
    [0o2011, 0o2017, 0o2415],
];

/// Published polynomials are the reference's. With both lists the identity and zero blocks, row word a
/// and column word a are the same bits in the same places, so any multiple of the generator in them
/// makes a frame with no word outside, and any turned bit of it puts both words outside.
fn published(case: &mut Case) {
    let (m, t) = (4 + case.index as u64 / 3, 1 + case.index as u64 % 3);
    let factors = &MINIMAL[case.index / 3][..t as usize];
    let factor = factors[t as usize - 1];
    case.same("minimal polynomial in octal", format!("{factor:o}"), format!("{:o}", minimal(m, 2 * t - 1)));
    let g = match GENERATORS[case.index / 3][case.index % 3] {
        0 => factors.iter().fold(1, |g, &factor| product(g, factor)),
        listed => listed,
    };
    case.same("generator in octal", format!("{g:o}"), format!("{:o}", generator(m, t)));
    if !pairs().contains(&(m, t)) {
        return;
    }
    let d = design(m, t, largest(m, t)).unwrap();
    let identity = list_bytes(&(0..d.order()).collect::<Vec<_>>());
    let kit = Kit { m, t, size: d.size, own: identity.clone(), parity: identity, inverse: vec![] };
    let shape = Shape::new(d, 2, entries(&kit.own), entries(&kit.parity));
    for shift in 0..d.r() {
        let a = case.rng.below(d.side());
        let word = shape.column_word(1, a);
        case.check("row word is column word", shape.row_word(1, a)[2 * d.side()..] == word[2 * d.side()..]);
        let mut lent = Lent::new(&kit, 2, vec![0; info_len(&d, 2)], vec![0; red_len(&d, 2)]);
        for i in (0..=d.r()).filter(|i| g >> i & 1 == 1) {
            lent.red[word[d.n() - 1 - (i + shift)].unwrap() - lent.info.len()] = 1;
        }
        case.same("words outside", Ok(0), check_words(&lent.received(), lent.word_work));
        case.check_words(&lent);
        let turned = 2 * d.side() + case.rng.below(2 * d.r());
        lent.red[word[turned].unwrap() - lent.info.len()] ^= 1;
        case.same("words outside", Ok(2), check_words(&lent.received(), lent.word_work));
        case.check_words(&lent);
    }
}

fn bits_of(text: &str) -> Vec<u8> {
    text.bytes().filter(|byte| *byte != b' ').map(|byte| byte - b'0').collect()
}

/// Rounds, turned, outside, stuck.
fn counts_of((rounds, turned, outside, stuck): (u64, u64, u64, u64)) -> Counts {
    Counts { rounds, turned, outside, stuck }
}

/// "Rows to check under K", each against the numbers of document 01.
fn rows_of_k(case: &mut Case) {
    let kit = kit_k();
    let d = design(4, 1, 1).unwrap();
    case.same("entries of the tables of powers", 2025, (4..=10).map(|m| powers(m).len()).sum::<usize>());
    case.same("x^9", 0b1010, power_remainder(9, generator(4, 1)));
    case.same("x^8", 0b0101, power_remainder(8, generator(4, 1)));
    let a_matrix = system(&Shape::new(d, 1, entries(&kit.own), entries(&kit.parity)));
    let rows: Vec<String> =
        (0..4).map(|i| (0..4).map(|j| if a_matrix.bit(i, j) { '1' } else { '0' }).collect()).collect();
    case.same("A", vec!["0110", "0001", "1110", "0101"], rows.iter().map(|row| &row[..]).collect());
    case.same("kit K", Ok(()), check_kit(&kit, d.kit_work()));
    for (blocks, group) in [
        ("1", "0000 1010"),
        ("10", "0000 1010"),
        ("01", "0001 0110"),
        ("11", "0001 1100"),
        ("0100", "0001 0110 0001 0011"),
    ] {
        let (info, red) = (bits_of(blocks), bits_of(group));
        case.same(blocks, Ok(red.clone()), encode(&kit, info.len() as u64, &info, red.len(), d.kit_work()));
        let lent = Lent::new(&kit, info.len(), info, red);
        case.same("words outside", Ok(0), check_words(&lent.received(), 4));
        case.all(&lent);
    }
    // U9: the frames 1, 0 and 0, 1 in one call; a byte of 7 in the last; no frames, 257, no blocks beside none
    for (blocks, frames, info, answer) in [
        (2, 2, vec![1, 0, 0, 1], Ok(bits_of("0000 1010 0001 0110"))),
        (2, 2, vec![1, 0, 0, 7], Err((10, 3))),
        (2, 2, vec![1, 0, 0], Err((6, 4))),
        (2, 0, vec![1], Err((17, 0))),
        (2, 257, vec![1], Err((17, 257))),
        (0, 0, vec![1], Err((4, 0))),
    ] {
        let mut lent = Lent::new(&kit, blocks, info, vec![255; 16]);
        lent.frames = frames;
        case.same("frames under one kit", answer, encode_batch(&kit, lent.blocks, frames, &lent.info, 16, d.kit_work()));
        case.encode_batch(&lent);
    }
    let identity = list_bytes(&[0, 1, 2, 3]);
    let equal = Kit { own: identity.clone(), parity: identity, ..kit.clone() };
    let zero = system(&Shape::new(d, 1, entries(&equal.own), entries(&equal.parity)));
    case.check("A is all zero", zero == Matrix::zero(4));
    case.same("both lists 0 1 2 3", Err((9, 0)), check_kit(&equal, d.kit_work()));
    case.all(&Lent::new(&equal, 2, vec![0, 1], vec![0; 8]));
    let mut last = kit.clone();
    last.inverse[3] = 0b1010;
    case.same("last row of W 0101", Err((9, 7)), check_kit(&last, d.kit_work()));
    case.all(&Lent::new(&last, 2, vec![0, 1], vec![0; 8]));
    // U4: a byte of 7 under a wrong inverse; with a spare bit of the inverse; with a repeated entry; good bytes
    let mut spare = last.clone();
    spare.inverse[2] |= 0x10;
    let mut repeated = spare.clone();
    repeated.parity[2..4].copy_from_slice(&kit.parity[..2]);
    for (name, wrong, bytes, refusal) in [
        ("7 under a wrong inverse", &last, [0, 7], (10, 1)),
        ("7 beside a spare bit", &spare, [0, 7], (8, 2)),
        ("7 beside a repeated entry", &repeated, [0, 7], (7, 5)),
        ("good bytes under a wrong inverse", &last, [0, 1], (9, 7)),
    ] {
        case.same(name, Err(refusal), encode(wrong, 2, &bytes, 8, d.kit_work()));
        case.all(&Lent::new(wrong, 2, bytes.to_vec(), vec![0; 8]));
    }
    for (blocks, group, rounds, after, kept, counts) in [
        ("01", "0001 0111", 0, "01", "0001 0110", (2, 1, 0, 0)),
        ("01", "0001 0111", 1, "01", "0001 0110", (1, 1, 0, 0)),
        ("00", "0000 0101", 0, "01", "0000 0101", (2, 1, 1, 1)),
    ] {
        let mut lent = Lent::new(&kit, 2, bits_of(blocks), bits_of(group));
        lent.rounds = rounds;
        let found = decode(&lent.received(), rounds, lent.decoder_work);
        case.same(group, Ok((bits_of(after), bits_of(kept), counts_of(counts))), found);
        case.all(&lent);
    }
    case.check("m 4, t 1, M 3", design(4, 1, 3).is_ok());
    case.same("m 4, t 1, M 4", Err((2, 16)), design(4, 1, 4));
    case.check("m 10, t 2, M 204", design(10, 2, 204).is_ok());
    case.same("m 10, t 2, M 205", Err((3, 4100)), design(10, 2, 205));
    for (m, t, size) in [(8, 3, 72), (8, 3, 96), (9, 3, 135)] {
        case.check("a design of the paper", design(m, t, size).is_ok());
    }
    case.check("M 390 does not fit", design(10, 3, 390).is_err());
    for (m, t, size) in [(4, 1, 3), (4, 1, 4), (10, 2, 204), (10, 2, 205), (8, 3, 72), (8, 3, 96), (9, 3, 135), (10, 3, 390)] {
        case.design(m, t, size);
    }
    let blocks = "block bits\n1 0\n2 1\n3 0\n4 0\n";
    let groups = "group self parity\n1 0001 0110\n2 0001 0011\n";
    let text = kit_text(&kit);
    case.same(
        "kit text",
        "m t M\n4 1 1\nplace self parity\n0 1 3\n1 0 0\n2 2 1\n3 3 2\nrow inverse\n0 1010\n1 0101\n2 1101\n3 0100\n",
        &text[..],
    );
    // U1: K makes its own W and text; equal lists have none; an entry of five digits; what is behind the lists
    case.same("W", Ok(kit.inverse.clone()), make_inverse(&kit, d.make_work()));
    case.same("both lists 0 1 2 3", Err((14, 0)), make_inverse(&equal, d.make_work()));
    let mut five = kit.clone();
    five.own[..2].fill(255);
    for (name, kit, length, answer) in [
        ("K", &kit, 94, Ok(text.clone().into_bytes())),
        ("K in 93 bytes", &kit, 93, Err((6, 7))),
        ("five digits", &five, 98, Err((7, 0))),
        ("five digits in 94 bytes", &five, 94, Err((6, 7))),
        ("a spare bit", &spare, 94, Err((8, 2))),
        ("a repeated entry", &repeated, 94, Err((7, 5))),
        ("a wrong inverse", &last, 94, Ok(kit_text(&last).into_bytes())),
    ] {
        case.same(name, answer, write_kit(kit, length));
        let lent = Lent::new(kit, 1, vec![], vec![]);
        case.make_inverse(&lent);
        case.kit_text_length(&lent);
        case.write_kit(&lent, length);
    }
    // U3: the first entries at m 6, t 1, M 12; M 11 and K's own M are narrow, also where a list is short
    let (own, parity) = spread_lists(6, 1, 12, 144, 144).unwrap();
    case.same("spread self list", vec![0, 1, 2, 3, 4, 5, 6, 7, 8, 9, 10, 11, 13, 14], entries(&own[..28]));
    case.same("spread parity list", vec![6, 7, 8, 9, 10, 11, 0, 1, 2, 3, 4, 5, 19, 20], entries(&parity[..28]));
    case.same("M 11", Err((15, 11)), spread_lists(6, 1, 11, 132, 131));
    case.same("K's design", Err((15, 1)), spread_lists(4, 1, 1, 8, 8));
    for (m, size, own, parity) in [(6, 12, 144, 144), (6, 11, 132, 131), (4, 1, 8, 8), (6, 12, 144, 143)] {
        case.spread_lists((m, 1, size), own, parity);
    }
    // mixed lists: the first entries at m 5, t 1, M 10 from seed 0, and the last state
    let (own, parity, state) = mixed_lists(5, 1, 10, 0, 100, 100).unwrap();
    case.same("mixed self list", vec![40, 41, 12, 23, 34, 5, 46, 17, 38, 49, 1, 32], entries(&own[..24]));
    case.same("mixed parity list", vec![15, 26, 47, 28, 49, 40, 31, 32, 3, 4, 36, 7], entries(&parity[..24]));
    case.same("last state", 2_854_566_144, state);
    case.same("M 9", Err((15, 9)), mixed_lists(5, 1, 9, 7, 90, 89));
    for (size, own, parity) in [(10, 100, 100), (9, 90, 89), (10, 100, 99), (10, 99, 99)] {
        case.mixed_lists((5, 1, size), 0, own, parity);
    }
    case.same("length", Ok(94), kit_text_length(&kit));
    case.same("length with five digits", Ok(98), kit_text_length(&five));
    case.make_inverse(&Lent::new(&equal, 1, vec![], vec![]));
    let same = "m t M\n4 1 1\nplace self parity\n0 0 0\n1 1 1\n2 2 2\n3 3 3\n";
    for (lists, printed) in [
        (&text[..54], &text[..]),
        (&text[..53], "refused place\n11 53\n"),
        (&text[..], "refused place\n11 54\n"),
        (same, "refused place\n14 0\n"),
        (&same.replace("2 2 2", "2 2 1"), "refused place\n7 6\n"),
        ("m t M\n4 1 4\n", "refused place\n2 16\n"),
        ("m t M\n4 1 4", "refused place\n11 11\n"),
        ("", "refused place\n11 0\n"),
    ] {
        case.same(lists, printed, &makekit_prints(lists.as_bytes()));
        case.makes(lists.as_bytes(), OUT);
    }
    case.same("frame", groups, &frame_prints(text.as_bytes(), blocks.as_bytes()));
    case.prints(false, text.as_bytes(), blocks.as_bytes(), OUT);
    let both = format!("{blocks}{groups}");
    let mended = format!("{both}rounds turned outside\n1 0 0\n");
    case.same("mend", &mended[..], &mend_prints(text.as_bytes(), both.as_bytes()));
    case.prints(true, text.as_bytes(), both.as_bytes(), OUT);
    // READINGS 1, 9: places named there
    case.same("a fifth digit", Err((11, 10)), scan_kit(b"m t M\n44444 1 1\n"));
    case.same("no block", Err((12, 11)), scan_blocks(4, 1, 1, b"block bits\n"));
    let many = block_text(&d, &[0; 4097]);
    case.same("4,097 blocks", Err((12, 27_576)), scan_blocks(4, 1, 1, many.as_bytes()));
}

/// The reference by itself: A from unit vectors by the definition, W A is the identity where A W is, an
/// encoded frame has no word outside and no other Y does, the kit text and the frame text read back.
fn reference_alone(case: &mut Case) {
    let good = case.context.kit(designs(400)[case.index]);
    let (d, kit) = (good.d, &good.kit);
    let shape = Shape::new(d, 2, entries(&kit.own), entries(&kit.parity));
    let a_matrix = system(&shape);
    let empty = vec![0; info_len(&d, 2) + red_len(&d, 2)];
    for _ in 0..4 {
        let j = case.rng.below(d.order());
        let mut frame = empty.clone();
        frame[info_len(&d, 2) + (j % d.r()) * d.side() + j / d.r()] = 1;
        let column: Vec<u8> = (0..d.order()).map(|i| a_matrix.bit(i, j) as u8).collect();
        case.same("a column of A", column, sums(&shape, &frame, 1));
    }
    case.same("the kit", Ok(()), check_kit(kit, d.kit_work()));
    case.same("a wrong entry of W A", None, good.w_matrix.first_wrong(&a_matrix));
    for blocks in [1, 2, 3, 4] {
        let lent = case.frame(&good, blocks);
        case.same("words outside", Ok(0), check_words(&lent.received(), lent.word_work));
        let again = encode(kit, lent.blocks, &lent.info, lent.red.len(), lent.kit_work);
        case.same("encoded", Ok(lent.red.clone()), again);
        let mut other = lent.clone();
        let at = case.rng.below(other.red.len());
        other.red[at] ^= 1;
        case.check("other redundancy", check_words(&other.received(), lent.word_work) != Ok(0));
        let text = block_text(&d, &lent.info) + &group_text(&d, &lent.red);
        case.same("frame text", Ok((lent.blocks, lent.info.clone(), lent.red.clone())), scan_frame(d.m, d.t, d.size, text.as_bytes()));
    }
    let read = read_kit(kit_text(kit).as_bytes(), kit.own.len(), kit.parity.len(), kit.inverse.len());
    let (_, back) = read.unwrap();
    case.check("kit text", back.own == kit.own && back.parity == kit.parity && back.inverse == kit.inverse);
}

/// The reference's check of each word: its reads are counted, and are "n, less M where the word has an unsent block", of each sent bit of the
/// word one and of no other bit any. B0 is in the row words of group 1, the block after the last of an odd number in the column words of the
/// last group. Over all words each bit is read twice, but once in the last block of an even number. (The library's reads are watched by reads.c.)
fn reads(case: &mut Case) {
    let all = designs(400);
    let d = all[case.index % all.len()];
    let blocks = 1 + case.index / all.len();
    let shape = Shape::new(d, blocks, case.rng.permutation(d.order()), case.rng.permutation(d.order()));
    let bits = info_len(&d, blocks) + red_len(&d, blocks);
    let frame = case.rng.bits(bits);
    let mut total = vec![0; bits];
    for (w, word) in shape.words().iter().enumerate() {
        let mut counted = vec![0; bits];
        check_word(&shape, word, |place| {
            counted[place] += 1;
            frame[place]
        });
        let (group, column) = (1 + w / (2 * d.side()), w / d.side() % 2 == 1);
        let unsent = if column { 2 * group > blocks } else { group == 1 };
        let right = if unsent { d.n() - d.side() } else { d.n() };
        case.same("reads of a word", right, counted.iter().sum::<usize>());
        case.check("each sent bit once, no other", (0..bits).all(|place| counted[place] == word.contains(&Some(place)) as usize));
        total.iter_mut().zip(counted).for_each(|(sum, more)| *sum += more);
    }
    let once = if blocks % 2 == 0 { info_len(&d, blocks - 1)..info_len(&d, blocks) } else { 0..0 };
    let wrong = (0..bits).find(|place| total[*place] != 2 - once.contains(place) as usize);
    case.same("a bit with another number of reads", None, wrong);
}

/// The reference's decoder of a word beside the sentence itself: all codewords of a short code are made,
/// and "a codeword lies within t changes" is looked up among them. Two codewords differ in at
/// least 2t + 1 positions. Position j of a word is bit n-1-j of a number.
fn nearest(case: &mut Case) {
    let (m, t, size, words) = [(4, 1, 1, 1 << 10), (4, 1, 3, 1 << 14), (5, 2, 1, 2000), (6, 3, 1, 300)][case.index];
    let d = design(m, t, size).unwrap();
    let g = generator(m, t);
    let codewords: Vec<u64> = (0..1 << d.k()).map(|q| product(g, q)).collect();
    let weight = codewords.iter().skip(1).map(|word| word.count_ones() as u64).min().unwrap();
    case.check("distance at least 2t + 1", weight >= 2 * t + 1);
    let patterns = Patterns::new(&d, g);
    for index in 0..words {
        let word = match index % 2 {
            _ if words == 1 << d.n() => index,
            0 => case.rng.next() >> (64 - d.n()),
            _ => (0..t).fold(case.rng.pick(&codewords), |word, _| word ^ 1 << case.rng.below(d.n())),
        };
        let near = codewords.iter().find(|&&other| (word ^ other).count_ones() as u64 <= t);
        let rest = remainder((0..d.n()).map(|j| (word >> (d.n() - 1 - j) & 1) as u8), g);
        let mended = patterns.changes(rest).map(|changes| changes.iter().fold(word, |word, j| word ^ 1 << (d.n() - 1 - j)));
        case.same("codeword within t changes", near.copied(), mended);
    }
}

/// Rule 14's column beside the sentence itself: all sums of earlier columns of a small matrix are made, and the first
/// column that is one of them is looked up. An inverse is found exactly where there is none, and is one on both
/// sides. A column is a number, bit i for row i.
fn dependent(case: &mut Case) {
    let order = 1 + case.index % 10;
    let mut columns: Vec<u64> = (0..order).map(|_| case.rng.next() >> (64 - order)).collect();
    if case.index % 4 == 0 {
        // thin columns, some of them zero
        columns.iter_mut().for_each(|column| *column &= case.rng.next() & case.rng.next());
    }
    let mut sums = vec![0];
    let mut found = None;
    let mut a_matrix = Matrix::zero(order);
    for (j, &column) in columns.iter().enumerate() {
        if found.is_none() && sums.contains(&column) {
            found = Some(j);
        }
        sums.extend(sums.clone().into_iter().map(|sum| sum ^ column));
        (0..order).filter(|i| column >> i & 1 == 1).for_each(|i| a_matrix.turn(i, j));
    }
    case.same("first dependent column", found, first_dependent(&a_matrix));
    let w_matrix = inverse(&a_matrix);
    case.same("an inverse", found.is_none(), w_matrix.is_some());
    if let Some(w_matrix) = w_matrix {
        case.same("A W", None, a_matrix.first_wrong(&w_matrix));
        case.same("W A", None, w_matrix.first_wrong(&a_matrix));
    }
}

// ---------------------------------------------------------------- Rules 1 to 3, kits

/// Every M from 0 to 502 for m 0 to 12 and t 0 to 4.
fn design_rules(case: &mut Case) {
    let (m, t) = (case.index as u64 % 13, case.index as u64 / 13);
    for size in (0..=502).chain(NUMBERS) {
        case.design(m, t, size);
    }
}

/// Every length for every M from 0 to 502 and other numbers, with 1 to 4,096 blocks, none and more; in answers of other lengths too.
fn every_size(case: &mut Case) {
    let (m, t) = (case.index as u64 % 13, case.index as u64 / 13);
    for size in (0..=502).chain(NUMBERS) {
        let some = 1 + case.rng.below(4096) as u64;
        for blocks in [1, 2, some, 4096, 0, 4097] {
            case.sizes((m, t, size), blocks);
            case.original_sizes((m, t, size), blocks);
        }
        case.order((m, t, size));
    }
    for blocks in NUMBERS {
        case.sizes((m, t, 3), blocks);
        case.original_sizes((m, t, 30), blocks);
    }
    for extra in [-16, -1, 1, 16] {
        case.answer_extra = extra;
        case.sizes((m, t, 3), 3);
        case.original_sizes((m, t, 30), 3);
        case.order((m, t, 3));
    }
    case.answer_extra = 0;
}

/// Reports of 0, 39, 40 and 41 bytes and others beside every refusal before and after place 8 of rule 6, and accepted calls.
fn reports(case: &mut Case) {
    let good = case.small();
    let mut right = case.frame(&good, 1 + case.index % 4);
    case.turn_bits(&mut right, 30);
    let wrong: [fn(&mut Lent); 21] = [
        |_| {},
        |l| l.m = 3,
        |l| l.t = 4,
        |l| l.size = 0,
        |l| (l.m, l.t, l.size) = (4, 1, 4),
        |l| (l.m, l.t, l.size) = (10, 2, 205),
        |l| l.blocks = 4097,
        |l| l.frames = 0,
        |l| l.rounds = 65,
        |l| l.window = 65,
        |l| l.own.push(0),
        |l| l.parity.truncate(l.parity.len() - 1),
        |l| l.inverse.push(0),
        |l| l.info.truncate(l.info.len() - 1),
        |l| l.red.push(0),
        |l| (l.kit_work, l.decoder_work) = (l.kit_work - 1, l.decoder_work + 1),
        |l| l.own[1] = 255,
        |l| *l.inverse.last_mut().unwrap() |= 0x80,
        |l| l.info[0] = 2,
        |l| *l.red.last_mut().unwrap() = 255,
        |l| l.inverse[0] ^= 1,
    ];
    for extra in [0, -40, -39, -1, 1, 40, 280] {
        case.answer_extra = extra;
        for spoil in wrong {
            let mut lent = right.clone();
            spoil(&mut lent);
            case.check_kit(&lent);
            case.encode(&lent);
            case.encode_batch(&lent);
            case.decode(&lent);
            let _ = case.decode_window(&lent);
            for tally in [vec![0; 6], vec![0; 5], vec![u64::MAX; 6]] {
                let _ = case.decode_tallied(&lent, &tally);
            }
        }
    }
    case.answer_extra = 0;
}

/// Kits that pass: every call, with odd and even numbers of blocks.
fn kits(case: &mut Case) {
    let all = designs(1000);
    let good = case.context.kit(all[case.index % all.len()]);
    let blocks = [1, 2, 3, 2 + case.rng.below(5)][case.index / all.len()];
    let lent = case.to_encode(&good, blocks);
    case.check_kit(&lent);
    case.encode(&lent);
    let lent = case.frame(&good, blocks);
    case.all(&lent);
}

/// Inverses that are wrong: single bits, spare bits, other matrices.
fn inverses(case: &mut Case) {
    let all = designs(400);
    let good = case.context.kit(all[case.index % all.len()]);
    let (order, width) = (good.d.order(), good.d.row_bytes());
    let last = order - 1;
    let random = (case.rng.below(order), case.rng.below(order));
    let diagonal = case.rng.below(order);
    let lent = case.to_encode(&good, 1 + case.index % 2);
    let mut inverses = vec![vec![0; order * width], Matrix::identity(order).to_bytes(), vec![255; order * width]];
    for (row, column) in [(0, 0), (0, last), (last, 0), (last, last), (diagonal, diagonal), (0, random.1), (last, random.1), (random.0, 0), (random.0, last), random] {
        let mut wrong = good.w_matrix.clone();
        wrong.turn(row, column);
        inverses.push(wrong.to_bytes());
    }
    let mut swapped = good.w_matrix.clone();
    swapped.rows.swap(0, last);
    inverses.push(swapped.to_bytes());
    let mut transposed = Matrix::zero(order);
    (0..order).for_each(|i| (0..order).filter(|&j| good.w_matrix.bit(i, j)).for_each(|j| transposed.turn(j, i)));
    inverses.push(transposed.to_bytes());
    // spare bits, also before and after a wrong entry (8 comes before 9)
    for spare in order..8 * width {
        for row in [0, last, random.0] {
            let mut inverse = good.kit.inverse.clone();
            inverse[row * width + spare / 8] |= 1 << (spare % 8);
            if case.rng.below(2) == 0 {
                inverse[random.0 * width] ^= 1;
            }
            inverses.push(inverse);
        }
    }
    for inverse in inverses {
        let wrong = Lent { inverse, ..lent.clone() };
        case.check_kit(&wrong);
        case.encode(&wrong);
    }
}

/// W with one bit turned, at each of its n² places: refused by rule 9 at a place below n². The other order, which is
/// not judged, is then wrong too.
fn inverse_everywhere(case: &mut Case) {
    let good = case.context.kit(designs(40)[case.index]);
    let order = good.d.order();
    let a_matrix = system(&Shape::new(good.d, 1, entries(&good.kit.own), entries(&good.kit.parity)));
    let lent = case.to_encode(&good, 1);
    for place in 0..order * order {
        let mut w_matrix = good.w_matrix.clone();
        w_matrix.turn(place / order, place % order);
        let wrong = Lent { inverse: w_matrix.to_bytes(), ..lent.clone() };
        let answer = check_kit(&wrong.kit(), wrong.kit_work);
        case.check("rule 9 below n²", matches!(answer, Err((9, at)) if at < (order * order) as u64));
        case.check("W A is wrong too", w_matrix.first_wrong(&a_matrix).is_some());
        case.check_kit(&wrong);
    }
}

/// Lists of every kind, the calls that read words on a frame of noise, and a zero inverse.
fn lists(case: &mut Case) {
    let all = designs(4096);
    let d = all[case.index % all.len()];
    let order = d.order();
    let rng = &mut case.rng;
    let (mut own, mut parity) = (rng.permutation(order), rng.permutation(order));
    let identity: Vec<usize> = (0..order).collect();
    let at = [0, order - 1, rng.below(order)][rng.below(3)];
    let large = [order, order + 1, 65_535, 4096.max(order), 9999, 32_768][rng.below(6)];
    match case.index / all.len() {
        0 => (own, parity) = (identity.clone(), identity),
        1 => own = identity.into_iter().rev().collect(),
        2 => parity = identity.into_iter().rev().collect(),
        3 => own[at] = large,
        4 => parity[at] = large,
        5 => own[at] = own[rng.below(order)], // repeated, or the same list
        6 => parity[at] = parity[rng.below(order)],
        7 => (own, parity) = (vec![0; order], vec![0; order]),
        8 => {
            parity[at] = parity[0];
            own[order - 1] = own[order / 2];
        }
        _ => {}
    }
    let kit = Kit {
        m: d.m,
        t: d.t,
        size: d.size,
        own: list_bytes(&own),
        parity: list_bytes(&parity),
        inverse: vec![0; order * d.row_bytes()],
    };
    let blocks = 1 + case.rng.below(3);
    let (info, red) = (case.rng.bits(info_len(&d, blocks)), case.rng.bits(red_len(&d, blocks)));
    let mut lent = Lent::new(&kit, blocks, info, red);
    lent.rounds = 1;
    case.all(&lent);
    if order <= 400 {
        case.make_and_write(&lent);
    }
}

// ---------------------------------------------------------------- Rules 4 to 10

/// Each slice one byte short, one long, empty and doubled, alone and two at once; the calls are lent frames.
fn lengths(case: &mut Case) {
    let good = case.context.kit(designs(60)[case.index]);
    let blocks = 1 + case.index % 3;
    let right = case.frame(&good, blocks);
    let resize = |lent: &mut Lent, which: usize, how: usize| {
        let other = |length: usize| [length - 1, length + 1, 0, 2 * length][how];
        let slice = match which {
            0 => &mut lent.own,
            1 => &mut lent.parity,
            2 => &mut lent.inverse,
            3 => &mut lent.info,
            4 => &mut lent.red,
            _ => {
                lent.kit_work = other(lent.kit_work);
                lent.make_work = other(lent.make_work);
                lent.word_work = other(lent.word_work);
                lent.decoder_work = other(lent.decoder_work);
                lent.loopback_work = other(lent.loopback_work);
                return;
            }
        };
        slice.resize(other(slice.len()), 0);
    };
    for which in 0..6 {
        for how in 0..4 {
            let mut lent = right.clone();
            resize(&mut lent, which, how);
            case.all(&lent);
            case.make_and_write(&lent);
            let mut two = lent.clone();
            resize(&mut two, (which + 1 + case.rng.below(5)) % 6, case.rng.below(4));
            case.all(&two);
            case.make_and_write(&two);
            // a wrong length beside a wrong list entry, a wrong inverse and a byte above 1
            let mut more = lent.clone();
            for slice in [&mut more.own, &mut more.parity, &mut more.inverse, &mut more.info, &mut more.red] {
                if let Some(byte) = slice.last_mut() {
                    *byte = 255;
                }
            }
            case.all(&more);
            case.make_and_write(&more);
        }
    }
    // the other call's working length
    let mut lent = right.clone();
    std::mem::swap(&mut lent.kit_work, &mut lent.word_work);
    std::mem::swap(&mut lent.loopback_work, &mut lent.decoder_work);
    case.all(&lent);
    // the working lengths without the words' numbers and the marks, without the marks, without those of the redundancy or of the information, and
    // with a byte for each bit
    case.all(&Lent { decoder_work: right.word_work, loopback_work: right.kit_work, ..right.clone() });
    let (bits, marks) = (right.info.len() + right.red.len(), (right.info.len() + right.red.len() + 7) / 8);
    for kept in [0, (right.info.len() + 7) / 8, (right.red.len() + 7) / 8, bits / 8, bits] {
        let (decoder_work, loopback_work) = (right.decoder_work - marks + kept, right.loopback_work - marks + kept);
        case.all(&Lent { decoder_work, loopback_work, ..right.clone() });
    }
    case.make_inverse(&Lent { make_work: right.kit_work, ..right.clone() });
}

/// Bytes above 1 at the first, a middle and the last place of information and redundancy, also beside a
/// repeated list entry (7) and a spare bit of the inverse (8), which come first, and under a wrong inverse
/// (9), which comes after.
fn bits_above_one(case: &mut Case) {
    let good = case.context.kit(designs(60)[case.index / 2]);
    let blocks = 1 + case.rng.below(4);
    let right = case.frame(&good, blocks);
    let places = |length: usize| [0, length / 2, length - 1];
    let byte = [2, 255, 128, 3, 49][case.rng.below(5)];
    let mut wrong = vec![];
    for at in places(right.info.len()) {
        let mut lent = right.clone();
        lent.info[at] = byte;
        wrong.push(lent);
    }
    for at in places(right.red.len()) {
        let mut lent = right.clone();
        lent.red[at] = byte;
        wrong.push(lent.clone());
        lent.info[case.rng.below(right.info.len())] = byte;
        lent.rounds = 1;
        wrong.push(lent);
    }
    for lent in wrong {
        case.all(&lent);
        let mut listed = lent.clone();
        let entry = [listed.own[0], listed.own[1]];
        let last = listed.parity.len() - 2;
        listed.parity[last..].copy_from_slice(&entry);
        listed.own[last..].copy_from_slice(&entry);
        case.all(&listed);
        let mut turned = lent.clone();
        turned.inverse[0] ^= 1;
        case.all(&turned);
        if good.d.order() % 8 != 0 {
            *turned.inverse.last_mut().unwrap() ^= 0x80;
            case.all(&turned);
        }
    }
}

/// Numbers far outside of every range, and at the edges of some.
const NUMBERS: [u64; 14] =
    [0, 1, 64, 65, 501, 4096, 4097, 65_536, 1 << 31, 1 << 32, (1 << 32) + 4, 1 << 63, u64::MAX - 1, u64::MAX];

/// Each of these for each number argument, alone and for two at once.
fn huge(case: &mut Case) {
    let number = NUMBERS[case.index % NUMBERS.len()];
    let good = case.small();
    let right = case.frame(&good, 2);
    let set = |lent: &mut Lent, which: usize, number: u64| match which {
        0 => lent.m = number,
        1 => lent.t = number,
        2 => lent.size = number,
        3 => lent.blocks = number,
        4 => lent.rounds = number,
        _ => lent.window = number,
    };
    for which in 0..6 {
        let mut lent = right.clone();
        set(&mut lent, which, number);
        case.all(&lent);
        case.make_and_write(&lent);
        case.design(lent.m, lent.t, lent.size);
        set(&mut lent, case.rng.below(6), case.rng.pick(&NUMBERS));
        case.all(&lent);
        case.make_and_write(&lent);
        lent.own.pop();
        case.all(&lent);
        case.make_and_write(&lent);
    }
    for (kind, shown) in [(0, number), (1, number), (number, 1), (number, number), (number, 2)] {
        case.show(&right, kind, shown, right.info.len() + right.red.len());
    }
    let text = block_text(&good.d, &right.info);
    let whole = text.clone() + &group_text(&good.d, &right.red);
    for which in 0..3 {
        let mut d = [good.d.m, good.d.t, good.d.size];
        d[which] = number;
        let d = (d[0], d[1], d[2]);
        case.scan_blocks(d, text.as_bytes());
        case.read_blocks(d, text.as_bytes(), right.info.len());
        case.scan_frame(d, whole.as_bytes());
        case.read_frame(d, whole.as_bytes(), right.info.len(), right.red.len());
    }
}

// ---------------------------------------------------------------- Several frames under one kit

/// Numbers of frames: rule 17 refuses the first, and those from the sixth on.
const FRAMES: [u64; 8] = [0, 1, 2, 3, 256, 257, 1 << 32, u64::MAX];

/// Frames of one length in one call, over old redundancy of 255s, and each of them by the single call. Then the same with each
/// slice a byte short and a byte long, with a byte of 7 in the last frame, under wrong kits, with 0 and with 4,097
/// blocks, and two of these at once.
fn batches(case: &mut Case) {
    let all = designs(60);
    let good = case.context.kit(all[case.index % all.len()]);
    let frames = FRAMES[case.index / all.len()];
    let blocks = 1 + case.rng.below(if frames == 256 { 2 } else { 4 });
    // a number that is refused is lent the buffers of 257 frames, or of one
    let joined = if frames == 257 { 257 } else if frames == 0 || frames > 257 { 1 } else { frames as usize };
    let mut lent = case.to_encode(&good, blocks);
    lent.frames = frames;
    let (info, red) = (lent.info.len(), lent.red.len());
    lent.info = case.rng.bits(joined * info);
    lent.red = vec![255; joined * red];
    let left = case.encode_batch(&lent);
    if (1..=256).contains(&frames) {
        for f in 0..joined {
            let alone = Lent { info: lent.info[f * info..][..info].to_vec(), red: vec![255; red], ..lent.clone() };
            let mut made = alone.red.clone();
            let (mut work, mut report) = (vec![0; lent.kit_work], [9; REPORT]);
            let number =
                host::encode(lent.design(), lent.blocks, &lent.own, &lent.parity, &lent.inverse, &alone.info, &mut made, &mut work, &mut report);
            case.same("a frame alone", (0, [0; 5], &left[f * red..][..red]), (number, report_numbers(report), &made[..]));
        }
    } else {
        case.check("refused by 17, untouched", left == lent.red);
    }
    let wrong = |lent: &mut Lent, which: usize| match which {
        0 => drop(lent.info.pop()),
        1 => lent.info.push(0),
        2 => drop(lent.red.pop()),
        3 => lent.red.push(0),
        4 => lent.kit_work -= 1,
        5 => lent.kit_work += 1,
        6 => drop(lent.own.pop()),
        7 => lent.parity.push(0),
        8 => drop(lent.inverse.pop()),
        9 => lent.blocks = 0,
        10 => lent.blocks = 4097,
        11 => lent.frames = lent.frames.wrapping_add(1),
        12 => lent.frames = lent.frames.wrapping_sub(1),
        13 => lent.own[1] = 255,
        14 => *lent.inverse.last_mut().unwrap() ^= 128,
        15 => lent.inverse[0] ^= 1,
        16 => lent.m = 3,
        _ => lent.info.last_mut().into_iter().for_each(|byte| *byte = 7),
    };
    for which in 0..18 {
        if frames == 256 && which % 3 != case.index % 3 {
            continue;
        }
        let mut one = lent.clone();
        wrong(&mut one, which);
        case.encode_batch(&one);
        wrong(&mut one, case.rng.below(18));
        case.encode_batch(&one);
    }
}

// ---------------------------------------------------------------- Received frames

/// Where each bit of a frame stands: the words that hold it.
fn holders(shape: &Shape, words: &[Word]) -> Vec<Vec<usize>> {
    let mut holders = vec![vec![]; info_len(&shape.d, shape.blocks) + red_len(&shape.d, shape.blocks)];
    for (w, word) in words.iter().enumerate() {
        word.iter().flatten().for_each(|&place| holders[place].push(w));
    }
    holders
}

/// Places to turn so that no word has more than t wrong bits, after `tries` random places.
pub fn within(rng: &mut Rng, shape: &Shape, tries: usize) -> Vec<usize> {
    let words = shape.words();
    let holders = holders(shape, &words);
    let mut wrong = vec![0; words.len()];
    let mut places = vec![];
    for _ in 0..tries {
        let place = rng.below(holders.len());
        if !places.contains(&place) && holders[place].iter().all(|&w| wrong[w] < shape.d.t) {
            holders[place].iter().for_each(|&w| wrong[w] += 1);
            places.push(place);
        }
    }
    places
}

/// Places to turn so that some words with an unsent block are one change of an unsent bit away from a
/// codeword, and some one of these and one of a sent bit.
fn beside_unsent(rng: &mut Rng, shape: &Shape) -> Vec<usize> {
    let (n, k) = (shape.d.n(), shape.d.k());
    let mut places = vec![];
    for word in shape.words() {
        let unsent: Vec<usize> = (0..n).filter(|&j| word[j].is_none()).collect();
        if unsent.is_empty() || rng.below(4) == 0 {
            continue;
        }
        let rest = power_remainder(n - 1 - rng.pick(&unsent), shape.g);
        places.extend((k..n).filter(|j| rest >> (n - 1 - j) & 1 == 1).map(|j| word[j].unwrap()));
        if rng.below(2) == 0 {
            places.extend(word[rng.below(n)]);
        }
    }
    places
}

/// Frames with wrong bits of every kind: the word checker and the decoder. Up to 1,000 rows the frames are
/// encoded; above, they are those of identity lists with zero blocks and any Y, or all zero.
fn received_frames(case: &mut Case) {
    let all = designs(4096);
    let d = all[case.index % all.len()];
    let kind = case.index / all.len();
    let blocks = if d.order() > 1000 { 1 + case.rng.below(3) } else { 1 + case.rng.below(6) };
    let sent = if d.order() <= 1000 {
        let good = case.context.kit(d);
        case.frame(&good, blocks)
    } else {
        unencoded(case, d, blocks)
    };
    let shape = Shape::new(d, blocks, entries(&sent.own), entries(&sent.parity));
    case.same("words outside", Ok(0), check_words(&sent.received(), sent.word_work));
    let mut frame = [&sent.info[..], &sent.red[..]].concat();
    let count = frame.len();
    let rng = &mut case.rng;
    let mut places = vec![];
    match kind {
        0 => {}
        1 => places = vec![rng.below(count)],
        2 => places = within(rng, &shape, 3),
        3 => places = within(rng, &shape, 10 * d.side()),
        4 => places = within(rng, &shape, 10 + count.min(2000)),
        5 | 6 => {
            let (info, red) = frame.split_at_mut(sent.info.len());
            let limit = if kind == 5 { 655 } else { 3277 };
            host::load_errors(sent.design(), sent.blocks, rng.next() as u32, limit, info, red, &mut [0; 2]);
        }
        7 => {
            let (info, red) = frame.split_at_mut(sent.info.len());
            let (place, length) = (rng.below(count) as u64, 1 + rng.below(3 * d.n()) as u64);
            host::load_run(sent.design(), sent.blocks, place, length, info, red, &mut [0; 1]);
        }
        8 => frame = vec![1; count],
        9 => frame = rng.bits(count),
        10 => {
            let word = rng.pick(&shape.words());
            places = (0..=d.t).filter_map(|_| word[rng.below(d.n())]).collect();
        }
        11 => places = beside_unsent(rng, &shape),
        12 => {
            places = beside_unsent(rng, &shape);
            places.extend((0..4).map(|_| rng.below(count)));
        }
        _ => {
            // some words of group 1 with about t + 1 wrong bits each
            for word in shape.words().iter().take(2 * d.side()) {
                let few = rng.below(d.t as usize + 2);
                places.extend((0..few).filter_map(|_| word[rng.below(d.n())]));
            }
        }
    }
    places.iter().for_each(|&place| frame[place] ^= 1);
    let mut copy = sent.clone();
    copy.red = frame.split_off(sent.info.len());
    copy.info = frame;
    copy.rounds = case.rng.pick(&[0, 0, 1, 2, 3, 12, 64, 65]);
    case.check_words(&copy);
    let (info, red) = case.decode(&copy);
    if kind <= 4 && kind != 1 && copy.rounds <= 64 {
        // "copies with at most t wrong bits a word are recovered"
        case.check("recovered", info == sent.info && red == sent.red);
    }
}

/// A frame without an inverse: all zero under random lists, or zero blocks under identity lists, where
/// any Y will do and P is what the column words give.
pub fn unencoded(case: &mut Case, d: Design, blocks: usize) -> Lent {
    let order = d.order();
    let zero = case.rng.below(2) == 0;
    let identity: Vec<usize> = (0..order).collect();
    let (own, parity) =
        if zero { (case.rng.permutation(order), case.rng.permutation(order)) } else { (identity.clone(), identity) };
    let kit = Kit { m: d.m, t: d.t, size: d.size, own: list_bytes(&own), parity: list_bytes(&parity), inverse: vec![] };
    let info = vec![0; info_len(&d, blocks)];
    let mut red = vec![0; red_len(&d, blocks)];
    if !zero {
        for group in red.chunks_mut(2 * order) {
            let (y, p) = group.split_at_mut(order);
            y.copy_from_slice(&case.rng.bits(order));
            for b in 0..d.side() {
                let column = (0..d.r()).map(|a| y[a * d.side() + b]);
                for (a, bit) in check_bits(column, d.r(), generator(d.m, d.t)).into_iter().enumerate() {
                    p[a * d.side() + b] = bit;
                }
            }
        }
    }
    Lent::new(&kit, blocks, info, red)
}

/// m, t, M and blocks. From 65,536 information bits on, sums are taken eight bits at a time: fewer and as many or more, and M with every remainder by eight.
const EIGHTS: [(u64, u64, u64, usize); 14] = [
    (5, 2, 5, 2621),
    (5, 2, 5, 2622),
    (4, 1, 3, 4096),
    (8, 3, 72, 12),
    (8, 3, 72, 13),
    (8, 3, 73, 13),
    (8, 2, 90, 9),
    (8, 3, 75, 12),
    (8, 3, 76, 12),
    (9, 3, 125, 5),
    (8, 3, 78, 11),
    (9, 3, 135, 4),
    (10, 2, 204, 2),
    (10, 1, 409, 1),
];

/// Long frames without errors, with few and with many.
fn eights(case: &mut Case) {
    let (m, t, size, blocks) = EIGHTS[case.index % EIGHTS.len()];
    let d = design(m, t, size).unwrap();
    let mut lent = unencoded(case, d, blocks);
    case.same("words outside", Ok(0), check_words(&lent.received(), lent.word_work));
    case.check_words(&lent);
    case.decode(&lent);
    let odds = if case.index < EIGHTS.len() { 2000 } else { 80 };
    case.turn_bits(&mut lent, odds);
    case.check_words(&lent);
    case.decode(&lent);
}

/// Noisy frames under small kits, the same one with many numbers of rounds.
fn rounds(case: &mut Case) {
    let good = case.small();
    let blocks = 1 + case.rng.below(9);
    let mut lent = case.frame(&good, blocks);
    let odds = 4 + case.rng.below(60) as u64;
    case.turn_bits(&mut lent, odds);
    for rounds in [0, 1, 2, 3, 4, 5, 6, 7, 8, 11, 12, 13, 63, 64, 65, 66, u64::MAX] {
        lent.rounds = rounds;
        case.decode(&lent);
    }
}

/// A kit with M 2 whose lists are not their own inverses, and two copies. In the first a right bit is turned in round 1 and turned back in round 2. In the
/// second, row word 0 would need a bit of B0 and column word 0 one of the block after the last; from round 2 on column word 0 turns
/// a bit that row word 1 turns back, so that no word is stuck in the last round and one is outside after it.
fn rows_of_second_kit(case: &mut Case) {
    let (own, parity) = (list_bytes(&[5, 3, 4, 1, 7, 2, 6, 0]), list_bytes(&[0, 5, 7, 3, 2, 1, 6, 4]));
    let mut kit = Kit { m: 4, t: 1, size: 2, own, parity, inverse: vec![0; 8] };
    kit.inverse = make_inverse(&kit, design(4, 1, 2).unwrap().make_work()).unwrap();
    for (info, places, rounds, counts, turned, restored) in [
        ("1010 0010 1100", [0, 6, 27], 0, (3, 3, 0, 0), 5, true),
        ("1010", [0, 11, 14], 0, (12, 3, 1, 0), 23, false),
        ("1010", [0, 11, 14], 1, (1, 1, 2, 2), 1, false),
        ("1010", [0, 11, 14], 2, (2, 3, 1, 0), 3, false),
        ("1010", [0, 11, 14], 64, (64, 3, 1, 0), 127, false),
    ] {
        let info = bits_of(info);
        let blocks = info.len() / 4;
        let red = encode(&kit, blocks as u64, &info, groups(blocks) * 16, 8).unwrap();
        let sent = [info.clone(), red.clone()].concat();
        let mut lent = Lent { rounds, ..Lent::new(&kit, blocks, info, red) };
        for place in places {
            lent.turn(place);
        }
        let told = decode(&lent.received(), rounds, lent.decoder_work).map(|(_, _, counts)| counts);
        case.same("what the decoder counts", Ok(counts_of(counts)), told);
        case.same("turns", Ok(turned), turns(&lent.received(), rounds, lent.decoder_work).map(|all| all.turns));
        let (info, red) = case.decode(&lent);
        case.same("restored", restored, [info, red].concat() == sent);
    }
}

/// Frames above the threshold, decoded with few and with many rounds: the words stuck in the last round beside those outside at the end, and
/// the bits that differ beside the turns. "That number may differ from the words outside at the end, since a later word may free an
/// earlier one": where the last round turned no bit, it may not. "a bit turned and turned back should not count": the turns are as
/// many and an even number more.
fn noise(case: &mut Case) {
    let all = designs(60);
    let good = case.context.kit(all[case.index % all.len()]);
    let blocks = 1 + case.rng.below(7);
    let sent = case.frame(&good, blocks);
    for rounds in [1, 2, 3, 0, 64] {
        let mut lent = Lent { rounds, ..sent.clone() };
        let odds = 3 + case.rng.below(30) as u64;
        case.turn_bits(&mut lent, odds);
        let (_, _, counts) = decode(&lent.received(), rounds, lent.decoder_work).unwrap();
        let all = turns(&lent.received(), rounds, lent.decoder_work).unwrap();
        case.check("turns come in pairs", all.turns >= counts.turned && (all.turns - counts.turned) % 2 == 0);
        case.meets("frames", true);
        case.meets("bits turned back", all.turns > counts.turned);
        case.meets("a round that turned bits, left the frame as it was and was not the last", all.undone_rounds > 0);
        case.meets("fewer stuck than outside", counts.stuck < counts.outside);
        case.meets("more stuck than outside", counts.stuck > counts.outside);
        case.meets("all rounds made, as many stuck as outside, not 0", counts.rounds == allowed(rounds) && counts.stuck == counts.outside && counts.stuck > 0);
        case.meets("an idle last round, some stuck", counts.rounds < allowed(rounds) && counts.stuck > 0);
        if counts.rounds < allowed(rounds) {
            case.same("stuck in an idle round", counts.outside, counts.stuck);
        }
        case.decode(&lent);
        // the same frame by the loopback
        let pattern = |right: &[u8], wrong: &[u8]| right.iter().zip(wrong).map(|(a, b)| a ^ b).collect::<Vec<u8>>();
        let (info_errors, red_errors) = (pattern(&sent.info, &lent.info), pattern(&sent.red, &lent.red));
        case.loopback(&Lent { rounds, info_errors, red_errors, ..sent.clone() });
    }
}

// ---------------------------------------------------------------- Showing, loopback, answers

/// Every block and group and those around, into buffers of several lengths; wrong lengths; other kinds.
fn showing(case: &mut Case) {
    let good = case.context.kit(designs(60)[case.index / 2]);
    let blocks = 1 + case.rng.below(7);
    let lent = case.to_encode(&good, blocks);
    for kind in [0, 1, 2, u64::MAX] {
        let stretch = if kind == 0 { good.d.side().pow(2) } else { 2 * good.d.order() };
        for number in (0..=blocks as u64 + 2).chain([u64::MAX, 4096, 1 << 32]) {
            for out_len in [stretch, stretch - 1, stretch + 5, 0] {
                case.show(&lent, kind, number, out_len);
            }
        }
        for length in [lent.info.len() - 1, lent.info.len() + 1, 0] {
            let mut wrong = lent.clone();
            wrong.info.resize(length, 0);
            case.show(&wrong, kind, 1, stretch);
            wrong.red.pop();
            case.show(&wrong, kind, 1, stretch);
            case.show(&wrong, kind, 0, stretch);
        }
        for length in [lent.red.len() - 1, lent.red.len() + 1, 0] {
            let mut wrong = lent.clone();
            wrong.red.resize(length, 0);
            case.show(&wrong, kind, 1, stretch);
        }
        for number in [0, 4097, u64::MAX, 4096] {
            case.show(&Lent { blocks: number, ..lent.clone() }, kind, 1, stretch);
        }
    }
}

/// Encode, turn, decode: patterns of right, short, long and no length, of bytes other than 1; rounds
/// that the decoder refuses; kits and buffers that the encoder refuses.
fn loopbacks(case: &mut Case) {
    let all = designs(60);
    let good = case.context.kit(all[case.index % all.len()]);
    let blocks = 1 + case.rng.below(6);
    let mut lent = case.to_encode(&good, blocks);
    let rng = &mut case.rng;
    let odds = [2, 10, 40, 200][rng.below(4)];
    let mut pattern = |length: usize| -> Vec<u8> {
        let length = [length, length, length / 2, length + 3, 0][rng.below(5)];
        (0..length).map(|_| if rng.below(odds) == 0 { rng.pick(&[1, 1, 2, 128, 255]) } else { 0 }).collect()
    };
    lent.info_errors = pattern(lent.info.len());
    lent.red_errors = pattern(lent.red.len());
    for rounds in [0, 1, 2, 64, 65, u64::MAX] {
        lent.rounds = rounds;
        case.loopback(&lent);
    }
    // old redundancy that is no bits: rule 5 leaves it, as it leaves the information
    lent.red.fill(200);
    lent.rounds = 65;
    case.loopback(&lent);
    // refused by the encoder too: rules 1 to 4 before 5, 6 to 10 after it
    let mut wrong = lent.clone();
    match case.rng.below(6) {
        0 => wrong.inverse[0] ^= 1,
        1 => wrong.info[0] = 2,
        2 => wrong.own[1] = 255,
        3 => drop(wrong.red.pop()),
        4 => wrong.loopback_work -= 1,
        _ => wrong.blocks = 0,
    }
    case.loopback(&wrong);
    wrong.rounds = 3;
    case.loopback(&wrong);
}

// ---------------------------------------------------------------- The test load

/// The first states from seed 0, document 02's rule worked out by hand; rows of the definitions under K; and README's comparison of two benches.
fn load_rows(case: &mut Case) {
    let mut generator = Generator(0);
    for (state, output) in [(0x3C6E_F35F, 0), (0x4750_2932, 0), (0xD1CC_F6E9, 1), (0xAAF9_5334, 1)] {
        case.same("an output from seed 0", output, generator.step());
        case.same("a state from seed 0", state, generator.0);
    }
    case.same("the first draw from seed 0", 13_821, Generator(0).draw());
    let kit = kit_k();
    let four = Lent::new(&kit, 4, vec![255; 4], vec![0; 16]);
    let filled = case.load_fill(&four, 0);
    case.same("four blocks under K", (bits_of("0011"), 0xAAF9_5334), filled);
    let two = Lent::new(&kit, 2, bits_of("01"), bits_of("0001 0110"));
    for (limit, info, red) in [(13_822, "11", "0011 0101"), (13_821, "01", "0011 0101"), (0, "01", "0001 0110"), (65_536, "10", "1110 1001")] {
        let left = case.load_errors(&two, 0, limit);
        case.same("errors from seed 0", (bits_of(info), bits_of(red), 451_923_744), left);
    }
    for (place, length, info, red) in [
        (1, 3, "00", "1101 0110"),
        (8, u64::MAX, "01", "0001 0101"),
        (10, 5, "01", "0001 0110"),
        (u64::MAX, u64::MAX, "01", "0001 0110"),
        (0, u64::MAX, "10", "1110 1001"),
    ] {
        let left = case.load_run(&two, place, length);
        case.same("a run", (bits_of(info), bits_of(red)), left);
    }
    // README, "The same frames on two benches"
    let text = include_bytes!("../../examples/five/kit.txt");
    let d = design_of_kit(text).unwrap();
    let list = 2 * d.order();
    let (_, kit) = read_kit(text, list, list, d.order() * d.row_bytes()).unwrap();
    let blocks = 31;
    let mut lent = Lent::new(&kit, blocks, vec![0; info_len(&d, blocks)], vec![0; red_len(&d, blocks)]);
    let (info, state) = case.load_fill(&lent, 1);
    case.same("the state after the information", 0x2830_2492, state);
    case.same("ones of the information", 399, info.iter().filter(|&&bit| bit == 1).count());
    lent.info = info;
    case.encode(&lent);
    lent.red = encode(&kit, blocks as u64, &lent.info, lent.red.len(), lent.kit_work).unwrap();
    let sent = [&lent.info[..], &lent.red[..]].concat();
    let (info, red, state) = case.load_errors(&lent, 2, 655);
    case.same("the state after the errors", 0x6596_B1B2, state);
    (lent.info, lent.red) = (info, red);
    let (info, red, _) = case.load_errors(&lent, 2, 655);
    case.check("turned a second time", [info, red].concat() == sent);
    let wrong = sent.iter().zip(lent.info.iter().chain(&lent.red)).filter(|(a, b)| a != b).count();
    case.same("wrong bits", 34, wrong);
    case.same("words outside before", Ok(58), check_words(&lent.received(), lent.word_work));
    let counts = decode(&lent.received(), 0, lent.decoder_work).map(|(_, _, counts)| counts);
    case.same("what the decoder counts", Ok(counts_of((2, 34, 0, 0))), counts);
    let (info, red) = case.decode(&lent);
    case.check("the frame is restored", [info, red].concat() == sent);
    let (tally, _) = case.decode_tallied(&lent, &[0; 6]);
    case.same("the tally", vec![1, 2375, 34, 2, 0, 0], tally.clone());
    let share = case.report(&tally);
    case.same("the share", Ok((34, 2375)), share);
}

/// Every mode under many designs: seeds and limits at their edges, each turned back by a second call; runs in either buffer, across the border of the two, at the end, past it,
/// of no length and of the greatest; then refusals one after the other.
fn loads(case: &mut Case) {
    let all = designs(400);
    let good = case.context.kit(all[case.index % all.len()]);
    let blocks = 1 + case.rng.below(5);
    let lent = case.frame(&good, blocks);
    let (border, count) = (lent.info.len() as u64, (lent.info.len() + lent.red.len()) as u64);
    let random = case.rng.next() as u32;
    for seed in [0, 1, u32::MAX, 1 << 31, random] {
        let (info, _) = case.load_fill(&lent, seed);
        case.check("bits", info.iter().all(|&bit| bit < 2));
        let limit = case.rng.pick(&[0, 1, 66, 655, 32_768, 65_535, 65_536, 65_537, 1 << 32, 1 << 63, u64::MAX]);
        let (info, red, state) = case.load_errors(&lent, seed, limit);
        let turned = Lent { info, red, ..lent.clone() };
        if limit >= 65_536 {
            case.check("every bit turned", lent.info.iter().zip(&turned.info).all(|(a, b)| a ^ b == 1));
        }
        let back = case.load_errors(&turned, seed, limit);
        case.same("turned back", (lent.info.clone(), lent.red.clone(), state), back);
        // the same on one buffer, of any length, with any bytes
        let buffer = case.load_buffer(&lent.info, seed, limit);
        case.check("as in a frame", buffer == turned.info);
        case.differences(&lent.info, &buffer);
        case.differences(&lent.info, &lent.red);
        let length = case.rng.below(40);
        let mut any = case.rng.bytes(length);
        case.load_buffer(&any, seed, limit);
        any.iter_mut().for_each(|byte| *byte %= 2);
        let turned = case.load_buffer(&any, seed, limit);
        case.differences(&any, &turned);
        case.differences(&any, &turned[length / 2..]);
    }
    for place in [0, 1, border - 1, border, border + 1, count - 1, count, count + 1, 1 << 32, 1 << 63, u64::MAX - 1, u64::MAX] {
        for length in [0, 1, 2, border, count, 1 << 32, 1 << 63, u64::MAX - 1, u64::MAX] {
            let (info, red) = case.load_run(&lent, place, length);
            let turned = lent.info.iter().chain(&lent.red).zip(info.iter().chain(&red)).filter(|(a, b)| a != b).count() as u64;
            case.same("bits that a run turns", length.min(count.saturating_sub(place)), turned);
        }
    }
    // each rule alone, and each beside all that come after it
    let mut wrong = lent.clone();
    let byte = case.rng.pick(&[2, 255, 128, 3]);
    for rule in [10, 6, 6, 4, 1, 1, 1] {
        let mut alone = lent.clone();
        for l in [&mut wrong, &mut alone] {
            match rule {
                10 if case.index % 2 == 0 => *l.red.last_mut().unwrap() = byte,
                10 => l.info[0] = byte,
                6 if case.index % 3 == 0 => l.red.push(0),
                6 => drop(l.info.pop()),
                4 => l.blocks = [0, 4097, u64::MAX][case.index % 3],
                _ => (l.m, l.t, l.size) = [(3, 1, 1), (4, 0, 1), (4, 1, 501), (4, 1, 4), (10, 2, 205)][case.rng.below(5)],
            }
        }
        for l in [&wrong, &alone] {
            case.load_fill(l, random);
            case.load_errors(l, random, 65_536);
            case.load_run(l, 0, u64::MAX);
        }
    }
}

/// Answers of other lengths are left as they are, and everything else is as always; reports of other lengths are refused.
fn answers(case: &mut Case) {
    let good = case.small();
    let lent = case.frame(&good, 3);
    let d = good.d;
    let blocks = block_text(&d, &lent.info);
    let whole = blocks.clone() + &group_text(&d, &lent.red);
    let kit = kit_text(&good.kit);
    let mut wrong = lent.clone();
    wrong.info[0] = 2;
    let own = lent.own.len();
    let mut equal = lent.clone();
    (equal.own, equal.parity) = (list_bytes(&(0..own / 2).collect::<Vec<_>>()), list_bytes(&(0..own / 2).collect::<Vec<_>>()));
    for extra in [-1, 1, -9, 4] {
        case.answer_extra = extra;
        for (m, t, size) in [lent.design(), (3, 1, 1), (4, 1, 4)] {
            case.design(m, t, size);
        }
        case.all(&lent);
        case.all(&wrong);
        let tally = case.some_tally();
        let _ = case.report(&tally);
        case.make_and_write(&lent);
        case.make_and_write(&equal);
        case.make_and_write(&Lent { size: 0, ..lent.clone() });
        case.scan_kit(kit.as_bytes());
        case.read_kit(kit.as_bytes(), own, own, lent.inverse.len());
        case.read_kit(&kit.as_bytes()[1..], own, own, lent.inverse.len());
        case.scan_blocks(lent.design(), blocks.as_bytes());
        case.read_blocks(lent.design(), blocks.as_bytes(), lent.info.len());
        case.scan_frame(lent.design(), whole.as_bytes());
        case.read_frame(lent.design(), whole.as_bytes(), lent.info.len(), lent.red.len());
    }
}

// ---------------------------------------------------------------- Making and writing kits

const LISTS: usize = 16;

/// Lists of a kind, and the columns among which that of rule 14 is, where this is known beforehand.
fn some_lists(rng: &mut Rng, d: &Design, kind: usize) -> (Vec<usize>, Vec<usize>, Option<Range<usize>>) {
    let (order, side, r) = (d.order(), d.side(), d.r());
    let (mut own, mut parity) = (rng.permutation(order), rng.permutation(order));
    let identity: Vec<usize> = (0..order).collect();
    match kind {
        0 => return (identity.clone(), identity, Some(0..1)), // A is zero
        1 => {
            // Each column of X and Q is kept to itself and its rows are moved. Column b of Y reaches P in its columns b and
            // turn(b), so that the columns of a cycle of these turns sum to zero, and no fewer do.
            let (to_y, to_p) = (rng.permutation(side), rng.permutation(side));
            let moved = |to: &[usize]| (0..order).map(|p| p / side * side + to[p % side]).collect();
            let turn = |b: usize| to_p[to_y.iter().position(|&to| to == b).unwrap()];
            let last_of_cycle = |b: usize| {
                let cycle = std::iter::successors(Some(b), |&at| Some(turn(at)).filter(|&next| next != b));
                cycle.max().unwrap()
            };
            let place = r * (0..side).map(last_of_cycle).min().unwrap();
            return (moved(&to_y), moved(&to_p), Some(place..place + 1));
        }
        2 => {
            // row word b has the bits of column word b: r zero columns of A
            let b = rng.below(side);
            for list in [&mut own, &mut parity] {
                for e in 0..r {
                    let at = list.iter().position(|&entry| entry == e * side + b).unwrap();
                    list.swap(at, e * side + b);
                }
            }
            return (own, parity, Some(0..b * r + 1));
        }
        3 => own = identity,
        4 => parity = identity.into_iter().rev().collect(),
        _ => {}
    }
    (own, parity, None)
}

/// The maker on lists of every kind, about 3 in 10 of them with an inverse, into buffers of noise; with one slice a byte
/// short and a byte long; with a repeated and with a too large entry. A made kit passes, encodes and decodes.
fn makers(case: &mut Case) {
    let all = designs(400);
    let d = all[case.index % all.len()];
    let kind = case.index / all.len();
    let (own, parity, known) = some_lists(&mut case.rng, &d, kind);
    let inverse = case.rng.bytes(d.order() * d.row_bytes());
    let kit = Kit { m: d.m, t: d.t, size: d.size, own: list_bytes(&own), parity: list_bytes(&parity), inverse };
    let lent = Lent::new(&kit, 1, vec![], vec![]);
    let result = make_inverse(&kit, d.make_work());
    if let Some(columns) = known {
        case.check("the column of rule 14", matches!(result, Err((14, at)) if columns.contains(&(at as usize))));
    }
    let left = case.make_inverse(&lent);
    if result.is_ok() {
        let kit = Kit { inverse: left.clone(), ..kit };
        let good = Good { d, w_matrix: Matrix::from_bytes(d.order(), &left), kit };
        case.same("the made kit", Ok(()), check_kit(&good.kit, d.kit_work()));
        made_kit(case, &good);
    }
    for which in 0..4 {
        for longer in [false, true] {
            let mut wrong = lent.clone();
            let slice = match which {
                0 => &mut wrong.own,
                1 => &mut wrong.parity,
                2 => &mut wrong.inverse,
                _ => {
                    wrong.make_work = if longer { wrong.make_work + 1 } else { wrong.make_work - 1 };
                    case.make_inverse(&wrong);
                    continue;
                }
            };
            slice.resize(if longer { slice.len() + 1 } else { slice.len() - 1 }, 0);
            case.make_inverse(&wrong);
        }
    }
    for list in 0..2 {
        for entry in [own[0], d.order(), 65_535] {
            let mut wrong = lent.clone();
            let at = 2 * (1 + case.rng.below(d.order() - 1));
            let slice = if list == 0 { &mut wrong.own } else { &mut wrong.parity };
            slice[at..at + 2].copy_from_slice(&(entry as u16).to_le_bytes());
            case.make_inverse(&wrong);
        }
    }
}

/// The library by itself, from lists to a frame and back: the maker's W passes the checker, encodes, and a copy with at most
/// t wrong bits a word is mended.
fn made_kit(case: &mut Case, good: &Good) {
    let (d, blocks) = (good.d, 1 + case.rng.below(3));
    let mut lent = case.to_encode(good, blocks);
    lent.inverse.fill(0xAA);
    let (mut answer, mut report) = ([1], [1; REPORT]);
    let (d3, mut work) = (lent.design(), vec![0; lent.make_work]);
    let number = host::make_inverse(d3, &lent.own, &lent.parity, &mut lent.inverse, &mut work, &mut answer);
    case.same("made", (0, [0]), (number, answer));
    work.truncate(lent.kit_work);
    let number = host::check_kit(d3, &lent.own, &lent.parity, &lent.inverse, &mut work, &mut report);
    case.same("passed", (0, [0; REPORT]), (number, report));
    let number =
        host::encode(d3, lent.blocks, &lent.own, &lent.parity, &lent.inverse, &lent.info, &mut lent.red, &mut work, &mut report);
    case.same("encoded", (0, [0; REPORT]), (number, report));
    let sent = lent.clone();
    let shape = Shape::new(d, blocks, entries(&lent.own), entries(&lent.parity));
    for place in within(&mut case.rng, &shape, 50) {
        lent.turn(place);
    }
    work.resize(lent.decoder_work, 0);
    let number =
        host::decode(d3, lent.blocks, 0, &lent.own, &lent.parity, &mut lent.info, &mut lent.red, &mut work, &mut report);
    let [place, _, _, outside, stuck] = report_numbers(report);
    case.same("decoded, none outside, none stuck", (0, 0, 0, 0), (number, place, outside, stuck));
    case.check("recovered", lent.info == sent.info && lent.red == sent.red);
}

/// Spread lists for every M from 0 to 502, m 0 to 12 and t 0 to 4, with lists of the right length; with one or both of
/// another length, and with an `answer` of another length, at the first wide and the last narrow M and at every 50th.
fn spread(case: &mut Case) {
    let (m, t) = (case.index as u64 / 5, case.index as u64 % 5);
    for size in 0..=502 {
        let right = (2 * m * t * size) as usize;
        case.spread_lists((m, t, size), right, right);
        if size % 50 == 0 || size == 2 * m * t || size + 1 == 2 * m * t {
            for (own, parity) in [(right + 1, right), (right, right + 2), (right + 1, right + 1), (right / 2, right), (right, 0), (0, 0)] {
                case.spread_lists((m, t, size), own, parity);
            }
            for extra in [-1, 1] {
                case.answer_extra = extra;
                case.spread_lists((m, t, size), right, right);
                case.answer_extra = 0;
            }
        }
    }
    for number in NUMBERS {
        for design3 in [(number, t, m), (m, number, 12), (m, t, number)] {
            case.spread_lists(design3, 144, 144);
        }
    }
}

/// The most redundancy bits of a row word that stand in one column word: every row word of a frame beside every column word.
fn most_met(shape: &Shape) -> usize {
    let d = shape.d;
    let words: Vec<_> = (1..=groups(shape.blocks)).flat_map(|i| (0..d.side()).map(move |a| (i, a))).collect();
    let columns: Vec<HashSet<usize>> = words.iter().map(|&(i, a)| shape.column_word(i, a).into_iter().flatten().collect()).collect();
    let mut most = 0;
    for &(i, a) in &words {
        let row = shape.row_word(i, a);
        let shared = |column: &HashSet<usize>| row[2 * d.side()..].iter().flatten().filter(|bit| column.contains(bit)).count();
        most = most.max(columns.iter().map(shared).max().unwrap());
    }
    most
}

/// Do redundancy bits of a row word meet in a column word? With spread lists none meet exactly where 2r is at most M. Half
/// of the cases have any allowed M. The maker finds no inverse of them.
fn meetings(case: &mut Case) {
    let all = designs(4096);
    let mut d = all[case.index / 2];
    if case.index % 2 == 1 {
        d.size = 1 + case.rng.below(largest(d.m, d.t) as usize) as u64;
    }
    let blocks = 1 + case.rng.below(4);
    let shape = Shape::new(d, blocks, turned(&d, 0), turned(&d, d.r()));
    let wide = 2 * d.r() <= d.side();
    case.same("redundancy bits of a row word in one column word", wide, most_met(&shape) == 1);
    case.spread_lists((d.m, d.t, d.size), 2 * d.order(), 2 * d.order());
    if d.order() <= 1000 {
        let (own, parity) = (list_bytes(&shape.own), list_bytes(&shape.parity));
        let kit = Kit { m: d.m, t: d.t, size: d.size, own, parity, inverse: case.rng.bytes(d.order() * d.row_bytes()) };
        case.check("no inverse", matches!(make_inverse(&kit, d.make_work()), Err((14, _))));
        case.make_inverse(&Lent::new(&kit, 1, vec![], vec![]));
    }
}

/// Mixed lists for every M from 0 to 502, m 0 to 12 and t 0 to 4, from any seed; of small lists and at M 72, 96, 135 and 204
/// from the first two and the last seed too. With one or both lists of another length, and with an `answer` of another
/// length, at the first wide and the last narrow M and at every 50th.
fn mixed_seeds(case: &mut Case) {
    let (m, t) = (case.index as u64 / 5, case.index as u64 % 5);
    for size in 0..=502 {
        let right = (2 * m * t * size) as usize;
        let any = case.rng.next() as u32;
        case.mixed_lists((m, t, size), any, right, right);
        if right <= 1200 || [72, 96, 135, 204].contains(&size) {
            for seed in [0, 1, u32::MAX] {
                case.mixed_lists((m, t, size), seed, right, right);
            }
        }
        if size % 50 == 0 || size == 2 * m * t || size + 1 == 2 * m * t {
            for (own, parity) in [(right + 1, right), (right, right + 2), (right + 1, right + 1), (right / 2, right), (right, 0), (0, 0)] {
                case.mixed_lists((m, t, size), any, own, parity);
            }
            for extra in [-1, 1] {
                case.answer_extra = extra;
                case.mixed_lists((m, t, size), any, right, right);
                case.answer_extra = 0;
            }
        }
    }
    for number in NUMBERS {
        for design3 in [(number, t, m), (m, number, 12), (m, t, number)] {
            case.mixed_lists(design3, 1, 144, 144);
        }
    }
}

/// The designs of which mixed lists are made: each m and t with the least M, a middle one and the largest.
fn wide_designs() -> Vec<Design> {
    let all = pairs().into_iter().flat_map(|(m, t)| {
        let (first, last) = (2 * m * t, largest(m, t));
        [first, (first + last) / 2, last].into_iter().filter(move |&size| first <= size && size <= last).map(move |size| design(m, t, size).unwrap())
    });
    all.collect()
}

/// With mixed lists no two redundancy bits of a row word meet in a column word. Lists that have an inverse make a kit that
/// passes, and others are refused by rule 14.
fn mixed_meetings(case: &mut Case) {
    let d = wide_designs()[case.index / 4];
    let blocks = 1 + case.rng.below(4);
    let mut generator = Generator(case.rng.next() as u32);
    let own = mixed(&d, 0, &mut generator);
    let parity = mixed(&d, d.r(), &mut generator);
    let shape = Shape::new(d, blocks, own, parity);
    case.same("redundancy bits of a row word in one column word", 1, most_met(&shape));
    if d.order() <= 1000 {
        let (own, parity) = (list_bytes(&shape.own), list_bytes(&shape.parity));
        let kit = Kit { m: d.m, t: d.t, size: d.size, own, parity, inverse: case.rng.bytes(d.order() * d.row_bytes()) };
        case.check("an inverse, or none", !matches!(make_inverse(&kit, d.make_work()), Err((rule, _)) if rule != 14));
        let mut lent = Lent::new(&kit, 1, vec![], vec![]);
        lent.inverse = case.make_inverse(&lent);
        case.check_kit(&lent);
    }
}

/// The writer on kits that pass and on others: wrong and zero inverses, entries of any digits up to five, spare bits. Text
/// buffers of the right length and of others, one slice a byte short and a byte long.
fn writers(case: &mut Case) {
    let kit = some_kit(case);
    let d = design(kit.m, kit.t, kit.size).unwrap();
    let mut lent = Lent::new(&kit, 1, vec![], vec![]);
    let last = d.order() - 1;
    let (row, column) = (case.rng.below(d.order()), case.rng.below(d.order()));
    match case.index % 8 {
        0..=2 => {}
        3 => lent.inverse[row * d.row_bytes() + column / 8] ^= 1 << (column % 8),
        4 => lent.inverse.fill(0),
        5 | 6 => {
            // entries of as many digits as there are, in some places or in all
            let odds = 1 + case.rng.below(d.order());
            for entry in lent.own.chunks_mut(2).chain(lent.parity.chunks_mut(2)) {
                if case.rng.below(odds) == 0 {
                    let any: u16 = case.rng.pick(&[0, 9, 10, 99, 100, 999, 1000, 9999, 10_000, 32_768, 65_535]);
                    entry.copy_from_slice(&any.to_le_bytes());
                }
            }
        }
        _ => {
            let at = 2 * case.rng.below(d.order());
            lent.parity[at..at + 2].copy_from_slice(&kit.parity[..2]);
        }
    }
    let right = case.kit_text_length(&lent);
    for text in [right, right - 1, right + 1, 0, 2 * right] {
        case.write_kit(&lent, text);
    }
    if write_kit(&lent.kit(), right).is_ok() {
        there_and_back(case, &lent, right);
    }
    for which in 0..3 {
        for longer in [false, true] {
            let mut wrong = lent.clone();
            let slice = [&mut wrong.own, &mut wrong.parity, &mut wrong.inverse].into_iter().nth(which).unwrap();
            slice.resize(if longer { slice.len() + 1 } else { slice.len() - 1 }, 0);
            case.kit_text_length(&wrong);
            case.write_kit(&wrong, right);
            case.write_kit(&wrong, right + 1);
        }
    }
    // spare bits: after a wrong length and wrong lists
    for spare in d.order()..8 * d.row_bytes() {
        for row in [0, last, row] {
            let mut wrong = lent.clone();
            wrong.inverse[row * d.row_bytes() + spare / 8] |= 1 << (spare % 8);
            case.write_kit(&wrong, right);
            case.write_kit(&wrong, right - 1);
        }
    }
}

/// The library by itself: what it writes it reads back to the same kit, and what it has read it writes as the same bytes.
fn there_and_back(case: &mut Case, l: &Lent, length: usize) {
    let (mut text, mut again, mut answer, mut told) = (vec![0; length], vec![1; length], [1], [1; 4]);
    let number = host::texts::write_kit(l.design(), &l.own, &l.parity, &l.inverse, &mut text, &mut answer);
    case.same("written", (0, [0]), (number, answer));
    let (mut own, mut parity, mut inverse) = (vec![0xA5; l.own.len()], vec![0xA5; l.parity.len()], vec![0xA5; l.inverse.len()]);
    let number = host::texts::read_kit(&text, &mut own, &mut parity, &mut inverse, &mut told);
    case.same("read", (0, [0, l.m, l.t, l.size]), (number, told));
    case.check("the same kit", own == l.own && parity == l.parity && inverse == l.inverse);
    let number = host::texts::write_kit((told[1], told[2], told[3]), &own, &parity, &inverse, &mut again, &mut answer);
    case.same("written again", (0, [0]), (number, answer));
    case.check("the same bytes", text == again);
}

/// 4,096 blocks in buffers and texts, 4,097 in texts, under kits with M 1.
fn many_blocks(case: &mut Case) {
    let kit = if case.index == 0 {
        kit_k()
    } else {
        let (m, t) = pairs()[3 * case.index % 18];
        case.context.kit(design(m, t, 1).unwrap()).kit.clone()
    };
    let d = design(kit.m, kit.t, kit.size).unwrap();
    let blocks = 4096 - case.index % 2;
    let info = case.information(&d, blocks);
    let red = encode(&kit, blocks as u64, &info, red_len(&d, blocks), d.kit_work()).unwrap();
    let mut lent = Lent::new(&kit, blocks, info, red);
    case.all(&lent);
    for number in [1, 2047, 2048, 2049, 4095, 4096, 4097] {
        case.show(&lent, 0, number, 1);
        case.show(&lent, 1, number, 2 * d.order());
    }
    case.turn_bits(&mut lent, 30);
    case.check_words(&lent);
    case.decode(&lent);
    for count in [4096, 4097, 4098, 5000] {
        let info = case.rng.bits(count);
        let text = block_text(&d, &info);
        case.scan_blocks(lent.design(), text.as_bytes());
        case.read_blocks(lent.design(), text.as_bytes(), count);
        case.read_blocks(lent.design(), text.as_bytes(), 4096);
        let red = case.rng.bits(red_len(&d, count));
        let text = text + &group_text(&d, &red);
        case.scan_frame(lent.design(), text.as_bytes());
        case.read_frame(lent.design(), text.as_bytes(), count, red.len());
        case.read_frame(lent.design(), text.as_bytes(), 4096, red_len(&d, 4096));
    }
    let text = block_text(&d, &lent.info);
    for cut in [text.len() - 1, text.len() - 3, text.len() - 8] {
        case.scan_blocks(lent.design(), &text.as_bytes()[..cut]);
        case.scan_frame(lent.design(), &text.as_bytes()[..cut]);
    }
    case.scan_frame(lent.design(), text.as_bytes());
    case.prints(false, kit_text(&kit).as_bytes(), text.as_bytes(), OUT);
}

// ---------------------------------------------------------------- Texts

/// Bytes to put in: those of the texts, neighbours of the digits, line ends, others.
const BYTES: &[u8] = b"0123789 \n\r\tgbmptrsM-+/:\0\xff";

/// All damages of a text at one place: cut, removed, inserted, changed, and the text with bytes appended.
fn damages(text: &[u8], at: usize) -> Vec<Vec<u8>> {
    let (before, after) = text.split_at(at);
    let mut texts = vec![before.to_vec()];
    if let Some((_, rest)) = after.split_first() {
        texts.push([before, rest].concat());
        texts.extend(BYTES.iter().map(|&byte| [before, &[byte], rest].concat()));
    }
    texts.extend(BYTES.iter().map(|&byte| [before, &[byte], after].concat()));
    texts
}

/// A number in a text, chosen at random: where it starts and ends.
fn some_number(rng: &mut Rng, text: &[u8]) -> (usize, usize) {
    let digit = |at: usize| text[at].is_ascii_digit();
    let starts: Vec<usize> = (0..text.len()).filter(|&at| digit(at) && (at == 0 || !digit(at - 1))).collect();
    if starts.is_empty() {
        return (0, 0);
    }
    let from = rng.pick(&starts);
    let to = (from..text.len()).find(|&at| !digit(at)).unwrap_or(text.len());
    (from, to)
}

/// One random damage, of kinds that one byte does not show.
fn damage(rng: &mut Rng, text: &[u8]) -> Vec<u8> {
    let at = match rng.below(3) {
        0 => rng.below(text.len() + 1),
        1 => text.len() - rng.below(text.len().min(8) + 1),
        _ => {
            let feeds: Vec<usize> = (0..text.len()).filter(|&at| text[at] == b'\n').collect();
            if feeds.is_empty() { 0 } else { (rng.pick(&feeds) + rng.below(3)).min(text.len()) }
        }
    };
    let (before, after) = text.split_at(at);
    let (from, to) = some_number(rng, text);
    let number = String::from_utf8_lossy(&text[from..to]).into_owned();
    let instead = |by: &str| [&text[..from], by.as_bytes(), &text[to..]].concat();
    let mut lines: Vec<&[u8]> = text.split_inclusive(|&byte| byte == b'\n').collect();
    let line = rng.below(lines.len().max(1));
    match rng.below(18) {
        0 => before.to_vec(),
        1 => [before, after.get(1..).unwrap_or(&[])].concat(),
        2 => [before, &[rng.pick(BYTES)], after].concat(),
        3 => [before, &[rng.pick(BYTES)], after.get(1..).unwrap_or(&[])].concat(),
        4 => [text, &[rng.pick(BYTES)]].concat(),
        5 => [text, text].concat(),
        6 => instead(&format!("0{number}")),
        7 => instead(&format!("{number}0")),
        8 => instead(&rng.pick(&["10000", "9999", "00", "0", "01", "", "12345", "-1", "99999999999999999999"])),
        9 if number.len() < 9 => instead(&format!("{}", number.parse::<u64>().unwrap_or(0) + 1)),
        10 => instead(&format!("{number} ")),
        11 => {
            if !lines.is_empty() {
                lines.remove(line);
            }
            lines.concat()
        }
        12 => {
            if !lines.is_empty() {
                lines.insert(line, lines[line]);
            }
            lines.concat()
        }
        13 => {
            let other = rng.below(lines.len().max(1));
            if !lines.is_empty() {
                lines.swap(line, other);
            }
            lines.concat()
        }
        14 => String::from_utf8_lossy(text).replace('\n', "\r\n").into_bytes(),
        15 => vec![],
        16 => rng.bytes(rng.clone().below(50)),
        _ => text.strip_suffix(b"\n").unwrap_or(text).to_vec(),
    }
}

/// Kit texts of K and of a kit with numbers of two digits, damaged at each place.
fn kit_text_everywhere(case: &mut Case) {
    for kit in [kit_k(), case.context.kit(design(4, 1, 3).unwrap()).kit.clone()] {
        let text = kit_text(&kit);
        if case.index > text.len() {
            continue;
        }
        for damaged in damages(text.as_bytes(), case.index) {
            case.scan_kit(&damaged);
            case.read_kit(&damaged, kit.own.len(), kit.parity.len(), kit.inverse.len());
            // 6 comes after the two lines and the design, before the rest
            case.read_kit(&damaged, kit.own.len(), kit.parity.len() + 1, kit.inverse.len());
        }
    }
}

/// Block and frame texts of three blocks under K, and of eleven under a kit with M 1, damaged at each place.
fn block_text_everywhere(case: &mut Case) {
    let other = case.context.kit(design(5, 1, 1).unwrap()).kit.clone();
    for (kit, blocks) in [(kit_k(), 3), (other, 11)] {
        let d = design(kit.m, kit.t, kit.size).unwrap();
        let (info, red) = (case.rng.bits(info_len(&d, blocks)), case.rng.bits(red_len(&d, blocks)));
        let text = block_text(&d, &info);
        if case.index <= text.len() {
            for damaged in damages(text.as_bytes(), case.index) {
                case.scan_blocks((d.m, d.t, d.size), &damaged);
                case.read_blocks((d.m, d.t, d.size), &damaged, info.len());
                case.read_blocks((d.m, d.t, d.size), &damaged, 0); // 6 comes after 12
            }
        }
        let text = text + &group_text(&d, &red);
        if case.index <= text.len() {
            for damaged in damages(text.as_bytes(), case.index) {
                case.scan_frame((d.m, d.t, d.size), &damaged);
                case.read_frame((d.m, d.t, d.size), &damaged, info.len(), red.len());
                case.read_frame((d.m, d.t, d.size), &damaged, info.len(), red.len() + 1);
            }
        }
    }
}

/// List texts of K and of a kit with numbers of two digits, damaged at each place.
fn list_text_everywhere(case: &mut Case) {
    for kit in [kit_k(), case.context.kit(design(4, 1, 3).unwrap()).kit.clone()] {
        let text = list_text(&kit);
        if case.index > text.len() {
            continue;
        }
        for damaged in damages(text.as_bytes(), case.index) {
            case.makes(&damaged, OUT);
        }
    }
}

/// A kit text: of a kit that passes, or with entries of any four digits, or of any bits.
fn some_kit(case: &mut Case) -> Kit {
    let d = match case.rng.below(8) {
        0 => design(7, 1, 24).unwrap(),
        1 => case.rng.pick(&designs(171)),
        _ => case.rng.pick(&designs(60)),
    };
    let mut kit = case.context.kit(d).kit.clone();
    if case.rng.below(3) == 0 {
        let limit = case.rng.pick(&[10, 100, 1000, 10_000]);
        let mut any = || list_bytes(&(0..d.order()).map(|_| case.rng.below(limit)).collect::<Vec<_>>());
        (kit.own, kit.parity) = (any(), any());
        let mut matrix = Matrix::zero(d.order());
        let ones = case.rng.below(2 * d.order());
        (0..ones).for_each(|_| matrix.turn(case.rng.below(d.order()), case.rng.below(d.order())));
        kit.inverse = matrix.to_bytes();
    }
    kit
}

/// Kit texts right and damaged, with buffers of right and wrong lengths; two lines of any numbers.
fn kit_texts(case: &mut Case) {
    let kit = some_kit(case);
    let text = kit_text(&kit);
    let (own, inverse) = (kit.own.len(), kit.inverse.len());
    case.scan_kit(text.as_bytes());
    case.read_kit(text.as_bytes(), own, own, inverse);
    for other in [own - 1, own + 1, 0] {
        case.read_kit(text.as_bytes(), other, own, inverse);
        case.read_kit(text.as_bytes(), own, other, inverse);
    }
    for other in [inverse - 1, inverse + 1, 0] {
        case.read_kit(text.as_bytes(), own, own, other);
    }
    for _ in 0..6 {
        let damaged = damage(&mut case.rng, text.as_bytes());
        case.scan_kit(&damaged);
        case.read_kit(&damaged, own, own, inverse);
        let short = [case.rng.below(3), case.rng.below(3), case.rng.below(3)];
        case.read_kit(&damaged, own + 1 - short[0], own + 1 - short[1], inverse + 1 - short[2]);
    }
    let mut number = || case.rng.pick(&["0", "1", "2", "3", "4", "7", "8", "10", "11", "72", "204", "205", "409", "500", "501", "9999", "10000", "00"]);
    let other = format!("m t M\n{} {} {}\n{}", number(), number(), number(), &text[case.rng.below(text.len())..]);
    case.scan_kit(other.as_bytes());
    case.read_kit(other.as_bytes(), own, own, inverse);
    if let Ok(d) = design_of_kit(other.as_bytes()) {
        case.read_kit(other.as_bytes(), 2 * d.order(), 2 * d.order(), d.order() * d.row_bytes());
    }
}

/// Block texts right and damaged.
fn block_texts(case: &mut Case) {
    let d = case.rng.pick(&designs(1000));
    let most = 1 + 2000 / d.side().pow(2);
    let blocks = 1 + case.rng.below(most.min(1200));
    let info = case.rng.bits(info_len(&d, blocks));
    let text = block_text(&d, &info);
    let d3 = (d.m, d.t, d.size);
    case.scan_blocks(d3, text.as_bytes());
    for length in [info.len(), info.len() - 1, info.len() + 1, 0] {
        case.read_blocks(d3, text.as_bytes(), length);
    }
    for _ in 0..6 {
        let damaged = damage(&mut case.rng, text.as_bytes());
        case.scan_blocks(d3, &damaged);
        case.read_blocks(d3, &damaged, info.len());
        case.scan_frame(d3, &damaged);
    }
    case.scan_blocks((d.m, d.t, d.size + 1), text.as_bytes());
}

/// `mend`'s texts right and damaged, with too few and too many groups.
fn frame_texts(case: &mut Case) {
    let d = case.rng.pick(&designs(300));
    let most = 1 + 1000 / d.side().pow(2);
    let blocks = 1 + case.rng.below(most.min(300));
    let info = case.rng.bits(info_len(&d, blocks));
    let red = case.rng.bits(red_len(&d, blocks));
    let (first, second) = (block_text(&d, &info), group_text(&d, &red));
    let text = first.clone() + &second;
    let d3 = (d.m, d.t, d.size);
    case.scan_frame(d3, text.as_bytes());
    for other in [info.len(), info.len() - 1, info.len() + 1, 0] {
        case.read_frame(d3, text.as_bytes(), other, red.len());
        case.read_frame(d3, text.as_bytes(), other, red.len() - 1);
    }
    for other in [red.len() + 1, 0] {
        case.read_frame(d3, text.as_bytes(), info.len(), other);
    }
    for _ in 0..6 {
        let damaged = damage(&mut case.rng, text.as_bytes());
        case.scan_frame(d3, &damaged);
        case.read_frame(d3, &damaged, info.len(), red.len());
        let damaged = first.clone().into_bytes().into_iter().chain(damage(&mut case.rng, second.as_bytes())).collect::<Vec<_>>();
        case.scan_frame(d3, &damaged);
        case.read_frame(d3, &damaged, info.len(), red.len());
    }
    let more = first.clone() + &group_text(&d, &[&red[..], &red[..2 * d.order()]].concat());
    let fewer = first.clone() + &group_text(&d, &red[2 * d.order()..]);
    for text in [more, fewer, first, second] {
        case.scan_frame(d3, text.as_bytes());
        case.read_frame(d3, text.as_bytes(), info.len(), red.len());
    }
}

/// The writers: into buffers with and without room, at places inside and far outside.
fn lines(case: &mut Case) {
    let numbers: Vec<u64> = (0..3)
        .map(|_| match case.rng.below(3) {
            0 => case.rng.below(12_000) as u64,
            1 => case.rng.pick(&[0, 9, 10, 99, 100, 999, 1000, 9999, 10_000, u64::MAX, 1 << 32, u64::MAX / 10, 10_000_000_000_000_000_000, 9_999_999_999_999_999_999]),
            _ => {
                let shift = case.rng.below(64);
                case.rng.next() >> shift
            }
        })
        .collect();
    let (long, short) = (case.rng.below(60), case.rng.below(20));
    let (own, parity) = (case.rng.bits(long), case.rng.bits(short));
    let at = case.rng.below(10);
    let longest = 200;
    let texts = [
        block_line(numbers[0], &own),
        group_line(numbers[0], &own, &parity),
        refusal_lines(numbers[0], numbers[1]),
        count_lines(numbers[0], numbers[1], numbers[2]),
    ];
    for (which, text) in texts.into_iter().enumerate() {
        let end = at + text.len();
        for (out_len, at) in [(longest, at), (end, at), (end - 1, at), (end + 1, at), (0, 0), (0, at), (longest, longest), (longest, longest + 1), (longest, usize::MAX), (longest, usize::MAX - 5), (longest, 1 << 63)] {
            let text = text.clone();
            match which {
                0 => case.line("block_line", out_len, at, text, &[&own], |out, b| host::texts::block_line(out, at, numbers[0], b[0])),
                1 => case.line("group_line", out_len, at, text, &[&own, &parity], |out, b| host::texts::group_line(out, at, numbers[0], b[0], b[1])),
                2 => case.line("refusal_lines", out_len, at, text, &[], |out, _| host::texts::refusal_lines(out, at, numbers[0], numbers[1])),
                _ => case.line("count_lines", out_len, at, text, &[], |out, _| host::texts::count_lines(out, at, numbers[0], numbers[1], numbers[2])),
            }
        }
    }
}

// ---------------------------------------------------------------- Programs

/// The designs with at most 171 rows and numbers of blocks whose text has exactly this length.
fn exact(mend: bool, length: usize) -> Vec<(Design, usize)> {
    let digits = |number: usize| number.ilog10() as usize + 1;
    let mut found = vec![];
    for (m, t) in pairs() {
        for d in (1..=largest(m, t)).map(|size| design(m, t, size).unwrap()).take_while(|d| d.order() <= 171) {
            let mut total = "block bits\n".len() + if mend { "group self parity\n".len() } else { 0 };
            for blocks in 1..=4096 {
                total += digits(blocks) + d.side().pow(2) + 2;
                if mend && blocks % 2 == 1 {
                    total += digits(groups(blocks)) + 2 * d.order() + 3;
                }
                if total == length {
                    found.push((d, blocks));
                }
                if total > length {
                    break;
                }
            }
        }
    }
    found
}

/// A kit whose text, or list text, has exactly this length: entries get as many digits as it takes.
fn exact_lists(m: u64, t: u64, size: u64, length: usize, text: fn(&Kit) -> String) -> Kit {
    let d = design(m, t, size).unwrap();
    let order = d.order();
    let mut kit = Kit { m, t, size, own: vec![0; 2 * order], parity: vec![0; 2 * order], inverse: vec![0; order * d.row_bytes()] };
    let missing = length - text(&kit).len();
    let mut lists = vec![0; 2 * order];
    (0..missing).for_each(|i| lists[i % (2 * order)] = [10, 100, 1000][i / (2 * order)]);
    kit.own = list_bytes(&lists[..order]);
    kit.parity = list_bytes(&lists[order..]);
    kit
}

/// A kit text of 175 rows of exactly this length, about 32,768.
fn exact_kit(length: usize) -> String {
    kit_text(&exact_lists(7, 1, 25, length, kit_text))
}

/// The text of a frame (for `mend`) or of its blocks (for `frame`), some bits of the former turned.
fn some_text(case: &mut Case, mend: bool, good: &Good, blocks: usize) -> String {
    let d = good.d;
    let mut lent = case.frame(good, blocks);
    if !mend {
        return block_text(&d, &lent.info);
    }
    match case.rng.below(6) {
        0 => {}
        1 => {
            let shape = Shape::new(d, blocks, entries(&lent.own), entries(&lent.parity));
            for place in within(&mut case.rng, &shape, 20) {
                lent.turn(place);
            }
        }
        2 => (lent.info, lent.red) = (case.rng.bits(lent.info.len()), case.rng.bits(lent.red.len())),
        3 => lent.info.iter_mut().chain(lent.red.iter_mut()).for_each(|bit| *bit = 1),
        _ => {
            let odds = 2 + case.rng.below(50);
            lent.info.iter_mut().chain(lent.red.iter_mut()).for_each(|bit| *bit ^= (case.rng.below(odds) == 0) as u8);
        }
    }
    block_text(&d, &lent.info) + &group_text(&d, &lent.red)
}

/// Two lines of a kit text with any numbers, and some start of the rest.
fn any_design(case: &mut Case) -> Vec<u8> {
    let mut number = |from: &[&str]| case.rng.pick(&from.iter().map(|s| s.to_string()).collect::<Vec<_>>());
    let any = ["0", "1", "2", "3", "4", "5", "8", "10", "11", "100", "204", "205", "410", "500", "501", "9999"];
    let start = if case.index / 20 % 2 == 0 {
        format!("m t M\n{} {} {}\n", number(&any), number(&any), number(&any))
    } else {
        let (m, t) = (number(&["4", "5", "9", "10"]), number(&["1", "2", "3"]));
        format!("m t M\n{m} {t} {}\n", number(&["4", "11", "137", "205", "247", "410", "500"]))
    };
    let rest = case.rng.pick(&["", "place self parity\n", "x", "\n"]);
    (start + &rest).into_bytes()
}

/// What a program reads: kit.txt and standard input.
fn program_input(case: &mut Case, mend: bool) -> (Vec<u8>, Vec<u8>) {
    let kind = case.index % 20;
    let d = match case.rng.below(6) {
        0 => design(4, 1, 1).unwrap(),
        1 => case.rng.pick(&designs(171)),
        2 => design(7, 1, 24).unwrap(),
        _ => case.rng.pick(&designs(60)),
    };
    let good = case.context.kit(d);
    let line = d.side().pow(2) + 6 + if mend { d.order() + 4 } else { 0 };
    let most = match case.rng.below(4) {
        0 => 33_000 / line,
        1 => 3000 / line,
        _ => 6,
    };
    let blocks = 1 + case.rng.below(most.clamp(1, 4096));
    let text = some_text(case, mend, &good, blocks).into_bytes();
    let kit = kit_text(&good.kit).into_bytes();
    match kind {
        0..=4 => (kit, text),
        5 => (damage(&mut case.rng, &kit), text),
        6 | 7 => (kit, damage(&mut case.rng, &text)),
        8 => (damage(&mut case.rng, &kit), damage(&mut case.rng, &text)),
        9 | 10 => {
            // wrong lists (7), met after the blocks
            let mut wrong = good.kit.clone();
            let at = 2 * case.rng.below(d.order());
            let list = if case.rng.below(2) == 0 { &mut wrong.own } else { &mut wrong.parity };
            let entry = [0, 1, d.order(), 9999][case.rng.below(4)] as u16;
            list[at..at + 2].copy_from_slice(&entry.to_le_bytes());
            let text = if case.rng.below(3) == 0 { damage(&mut case.rng, &text) } else { text };
            (kit_text(&wrong).into_bytes(), text)
        }
        11 | 12 => {
            // a wrong inverse (9): one bit, or all zero
            let mut wrong = good.w_matrix.clone();
            let (row, column) = (case.rng.below(d.order()), case.rng.below(d.order()));
            wrong.turn(row, column);
            if case.rng.below(4) == 0 {
                wrong = Matrix::zero(d.order());
            }
            let text = if case.rng.below(3) == 0 { damage(&mut case.rng, &text) } else { text };
            (kit_text(&Kit { inverse: wrong.to_bytes(), ..good.kit.clone() }).into_bytes(), text)
        }
        13 => {
            // the start of the kit text of a large design
            let d = case.rng.pick(&designs(4096));
            let mut start = format!("m t M\n{} {} {}\nplace self parity\n", d.m, d.t, d.size);
            (0..d.order()).for_each(|place| start += &format!("{place} {} {}\n", place % 10, case.rng.below(10)));
            start += "row inverse\n";
            let cut = case.rng.below(start.len().min(INPUT) + 1);
            let mut start = if case.rng.below(2) == 0 { start[..cut].to_string() } else { start };
            if case.rng.below(3) == 0 {
                start.push_str("0 1010");
            }
            start.truncate(INPUT);
            (start.into_bytes(), text)
        }
        14 => {
            // rules 1 to 3, whatever follows
            (any_design(case), text)
        }
        15 => {
            // inputs of exactly, above and just below 32,768 bytes: kit, text or both
            let length = INPUT - 1 + case.rng.below(3);
            let resized = |bytes: &[u8], fill: u8| -> Vec<u8> {
                let mut bytes = bytes.to_vec();
                bytes.resize(length, fill);
                bytes
            };
            let fill = case.rng.pick(BYTES);
            match case.rng.below(5) {
                0 => (resized(&kit, fill), text),
                1 => (kit, resized(&text, fill)),
                2 => (resized(&kit, fill), resized(&text, fill)),
                3 => (exact_kit(length).into_bytes(), text),
                _ => (exact_kit(length).into_bytes(), resized(&text, fill)),
            }
        }
        16 | 17 => {
            // the longest whole texts of at most 32,768 and 32,769 bytes
            let length = INPUT + case.rng.below(2);
            let found = (0..).map(|less| exact(mend, length - less)).find(|found| !found.is_empty()).unwrap();
            let (d, blocks) = case.rng.pick(&found);
            let good = case.context.kit(d);
            (kit_text(&good.kit).into_bytes(), some_text(case, mend, &good, blocks).into_bytes())
        }
        18 => {
            // about 4,096 blocks with M 1
            let (m, t) = case.rng.pick(&pairs());
            let good = case.context.kit(design(m, t, 1).unwrap());
            let info = vec![(case.index / 20 % 2) as u8; 4094 + case.rng.below(5)];
            (kit_text(&good.kit).into_bytes(), block_text(&good.d, &info).into_bytes())
        }
        _ => {
            // text for another M, empty inputs, inputs exchanged
            match case.rng.below(4) {
                0 => (kit, vec![]),
                1 => (vec![], text),
                2 => (text, kit),
                _ => {
                    let other = case.small();
                    (kit, some_text(case, mend, &other, 2).into_bytes())
                }
            }
        }
    }
}

/// Through the library, or the program itself.
fn program(case: &mut Case, mend: bool, itself: bool) {
    let (kit, text) = program_input(case, mend);
    if itself {
        return case.runs(mend, &kit, &text);
    }
    case.prints(mend, &kit, &text, OUT);
    if case.index % 50 == 0 {
        case.prints(mend, &kit, &text, OUT - 1);
        case.prints(mend, &kit, &text, 0);
    }
}

/// What `makekit` reads.
fn list_input(case: &mut Case) -> Vec<u8> {
    let kind = case.index % 20;
    let d = match case.rng.below(6) {
        0 => design(4, 1, 1).unwrap(),
        1 | 2 => case.rng.pick(&designs(171)),
        3 => design(7, 1, 24).unwrap(),
        _ => case.rng.pick(&designs(60)),
    };
    let kit_of = |d: &Design, own: &[usize], parity: &[usize]| -> Kit {
        Kit { m: d.m, t: d.t, size: d.size, own: list_bytes(own), parity: list_bytes(parity), inverse: vec![] }
    };
    let kept = case.rng.below(LISTS);
    let (own, parity, _) = some_lists(&mut case.rng, &d, if kind == 11 { kept % 3 } else { LISTS });
    let mut kit = kit_of(&d, &own, &parity);
    let text = list_text(&kit).into_bytes();
    match kind {
        0..=3 => text,
        4 | 5 => list_text(&case.context.kit(d).kit).into_bytes(),
        6 | 7 => damage(&mut case.rng, &text),
        8 => {
            // a whole kit text, and one cut behind its lists
            let whole = kit_text(&case.context.kit(d).kit);
            let cut = text.len() + case.rng.below(whole.len() - text.len() + 1);
            whole.into_bytes()[..cut].to_vec()
        }
        9 | 10 => {
            // wrong lists (7), some beside a damage (11)
            let at = 2 * case.rng.below(d.order());
            let entry = [0, 1, d.order(), 9999][case.rng.below(4)] as u16;
            let list = if case.rng.below(2) == 0 { &mut kit.own } else { &mut kit.parity };
            list[at..at + 2].copy_from_slice(&entry.to_le_bytes());
            let text = list_text(&kit).into_bytes();
            if case.rng.below(4) == 0 { damage(&mut case.rng, &text) } else { text }
        }
        11 => text, // no inverse (14)
        12 | 13 => {
            // a large design, with short entries that no list has: whole (13 at 1), cut or with bytes behind (11)
            let d = case.rng.pick(&designs(4096));
            let few: Vec<usize> = (0..d.order()).map(|place| place % 10).collect();
            let mut text = list_text(&kit_of(&d, &few, &few)).into_bytes();
            match case.rng.below(4) {
                0 => text.truncate(case.rng.below(text.len().min(INPUT) + 1)),
                1 => text.push(case.rng.pick(BYTES)),
                _ => {}
            }
            text
        }
        14 => any_design(case),
        15 => {
            // a list text of about 32,768 bytes, whole (13 at 1 or 2) or with its last byte changed (11 or 13 at 2)
            let length = INPUT - 1 + case.rng.below(3);
            let mut text = list_text(&exact_lists(10, 1, 250, length, list_text)).into_bytes();
            if case.rng.below(3) == 0 {
                *text.last_mut().unwrap() = case.rng.pick(BYTES);
            }
            text
        }
        16 => {
            // the kit text would have about 32,768 bytes: 7, or 13 at 1
            let length = INPUT - 1 + case.rng.below(3);
            list_text(&exact_lists(7, 1, 25, length, kit_text)).into_bytes()
        }
        17 => {
            // the largest designs whose kit text is short enough, and the smallest of the others
            let near: Vec<Design> = pairs()
                .into_iter()
                .flat_map(|(m, t)| (1..=largest(m, t)).map(move |size| design(m, t, size).unwrap()))
                .filter(|d| (160..=190).contains(&d.order()))
                .collect();
            let d = case.rng.pick(&near);
            let (own, parity, _) = some_lists(&mut case.rng, &d, kept);
            list_text(&kit_of(&d, &own, &parity)).into_bytes()
        }
        18 => {
            // filled up to about 32,768 bytes, and far above
            let length = case.rng.pick(&[INPUT - 1, INPUT, INPUT + 1, 40_000]);
            [text, vec![case.rng.pick(BYTES); length]].concat()[..length].to_vec()
        }
        _ => match case.rng.below(4) {
            0 => vec![],
            1 => some_text(case, false, &case.context.kit(d), 2).into_bytes(),
            2 => [&text[..], &text[..]].concat(),
            _ => {
                let damaged = damage(&mut case.rng, &text);
                damage(&mut case.rng, &damaged)
            }
        },
    }
}

/// Through the library, or the program itself.
fn makekit(case: &mut Case, itself: bool) {
    let text = list_input(case);
    if itself {
        return case.runs_makekit(&text);
    }
    case.makes(&text, OUT);
    if case.index % 50 == 0 {
        case.makes(&text, OUT + 1);
        case.makes(&text, OUT - 1);
        case.makes(&text, 0);
    }
}

// ---------------------------------------------------------------- Large kits

/// Kits of 1,728 and 4,080 rows, the paper's other two designs that fit, and the largest design of each pair
/// m, t where it has more than 1,000 rows.
fn large_designs() -> Vec<Design> {
    let named = [(8, 3, 72), (10, 2, 204), (8, 3, 96), (9, 3, 135)];
    let largest = pairs().into_iter().map(|(m, t)| (m, t, largest(m, t)));
    let mut all: Vec<Design> = vec![];
    for (m, t, size) in named.into_iter().chain(largest) {
        let d = design(m, t, size).unwrap();
        if d.order() > 1000 && !all.contains(&d) {
            all.push(d);
        }
    }
    all
}

/// The kit right and with one wrong bit, and blocks encoded; a lightly damaged frame decoded; for the first
/// two designs a loopback, and the kit text of the first; the kit made and written for the same two.
fn large(case: &mut Case) {
    let all = large_designs();
    if let Some(which @ 2..) = case.index.checked_sub(2 * all.len()) {
        return large_maker(case, all[which - 2]);
    }
    let d = all[case.index % all.len()];
    let good = case.context.kit(d);
    let blocks = if case.index % all.len() < 2 { 2 } else { 1 };
    match case.index / all.len() {
        0 => {
            let lent = case.to_encode(&good, blocks);
            case.check_kit(&lent);
            let mut wrong = good.w_matrix.clone();
            wrong.turn(case.rng.below(d.order()), case.rng.below(d.order()));
            case.check_kit(&Lent { inverse: wrong.to_bytes(), ..lent.clone() });
            case.encode(&lent);
            if case.index == 0 {
                let (info, red) = (case.rng.bits(11 * lent.info.len()), vec![255; 11 * lent.red.len()]);
                case.encode_batch(&Lent { frames: 11, info, red, ..lent });
            }
        }
        1 => {
            let mut lent = case.frame(&good, blocks);
            let shape = Shape::new(d, blocks, entries(&lent.own), entries(&lent.parity));
            let sent = lent.clone();
            for place in within(&mut case.rng, &shape, 200) {
                lent.turn(place);
            }
            case.check_words(&sent);
            case.check_words(&lent);
            let (info, red) = case.decode(&lent);
            case.check("recovered", info == sent.info && red == sent.red);
        }
        _ => {
            let mut lent = case.to_encode(&good, blocks);
            lent.info_errors = (0..lent.info.len()).map(|_| (case.rng.below(300) == 0) as u8).collect();
            case.loopback(&lent);
            if d.order() > 1728 {
                return;
            }
            let text = kit_text(&good.kit);
            let (own, inverse) = (good.kit.own.len(), good.kit.inverse.len());
            case.read_kit(text.as_bytes(), own, own, inverse);
            for at in [text.len() - 1, text.len() / 2, 40_000] {
                let mut damaged = text.clone().into_bytes();
                damaged[at] = b'2';
                case.read_kit(&damaged, own, own, inverse);
                case.read_kit(&text.as_bytes()[..at], own, own, inverse);
            }
        }
    }
}

/// A kit made, written and read back; lists that have no inverse.
fn large_maker(case: &mut Case, d: Design) {
    let good = case.context.kit(d);
    let mut lent = Lent::new(&good.kit, 1, vec![], vec![]);
    case.check_kit(&lent);
    let length = case.kit_text_length(&lent);
    case.write_kit(&lent, length);
    there_and_back(case, &lent, length);
    lent.inverse.fill(0xAA);
    case.make_inverse(&lent);
    let (own, parity, known) = some_lists(&mut case.rng, &d, 1);
    (lent.own, lent.parity) = (list_bytes(&own), list_bytes(&parity));
    let result = make_inverse(&lent.kit(), lent.make_work);
    case.check("the column of rule 14", matches!(result, Err((14, at)) if known.unwrap().contains(&(at as usize))));
    case.make_inverse(&lent);
}

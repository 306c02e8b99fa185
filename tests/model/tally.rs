//! The groups of cases on tallies and their report.
//!
//! - `rows`: two decodes under K and one that is refused, by hand
//! - `lists_of_decodes`: the totals of a long list beside the sums over its accepted decodes
//! - `full`: totals at 2^62 and above in each place, beside every other refusal
//! - `reports`: shares in lowest terms

use super::*;

const LIMIT: u64 = 1 << 62;

/// A decode that is refused so, and leaves the tally.
fn refused(case: &mut Case, what: &str, lent: &Lent, tally: &[u64], refusal: Refusal) {
    let answer = case.decode_tallied(lent, tally);
    case.same(what, (tally.to_vec(), Err(refusal)), answer);
}

/// The frames of document 01's rows under K have 10 sent bits each.
pub fn rows(case: &mut Case) {
    let frame = |info: [u8; 2], red: [u8; 8], rounds| Lent { rounds, ..Lent::new(&kit_k(), 2, info.to_vec(), red.to_vec()) };
    let mended = frame([0, 1], [0, 0, 0, 1, 0, 1, 1, 1], 0);
    let stays = frame([0, 0], [0, 0, 0, 0, 0, 1, 0, 1], 0);
    let mut tally = vec![0; 6];
    for (lent, totals, share) in [
        (&mended, [1, 10, 1, 2, 0, 0], (1, 10)),
        (&Lent { rounds: 65, ..mended.clone() }, [1, 10, 1, 2, 0, 0], (1, 10)),
        (&stays, [2, 20, 2, 4, 1, 1], (1, 10)),
        (&Lent { rounds: 1, ..mended.clone() }, [3, 30, 3, 5, 1, 1], (1, 10)),
        (&frame([0, 1], [0, 0, 0, 1, 0, 1, 1, 0], 0), [4, 40, 3, 6, 1, 1], (3, 40)),
        (&frame([0, 1], [0, 0, 0, 7, 0, 1, 1, 0], 0), [4, 40, 3, 6, 1, 1], (3, 40)),
    ] {
        (tally, _) = case.decode_tallied(lent, &tally);
        case.same("the totals", totals.to_vec(), tally.clone());
        let found = case.report(&tally);
        case.same("the share", Ok(share), found);
    }
    // bit 2 of the redundancy is no bit, and the third total is full: 10, then 16; a repeated entry before both
    let full = [0, LIMIT, LIMIT + 1, 0, 0, u64::MAX];
    let mut bad = mended.clone();
    bad.red[2] = 2;
    let mut listed = bad.clone();
    listed.own[0] = 0;
    for (lent, refusal) in [(&listed, (7, 1)), (&bad, (10, 4)), (&mended, (16, 3))] {
        refused(case, "a full tally", lent, &full, refusal);
    }
}

/// One frame to decode: noisy or not, some of them with something that a rule refuses.
fn some_frame(case: &mut Case, good: &Good) -> Lent {
    let blocks = 1 + case.rng.below(4);
    let mut lent = case.frame(good, blocks);
    let odds = case.rng.pick(&[5, 12, 40, 200, 100_000]);
    case.turn_bits(&mut lent, odds);
    lent.rounds = case.rng.pick(&[0, 0, 0, 1, 2, 64]);
    let rng = &mut case.rng;
    match rng.below(20) {
        0 => (lent.m, lent.t, lent.size) = rng.pick(&[(3, 1, 1), (4, 1, 4), (10, 2, 205)]),
        1 => lent.blocks = rng.pick(&[0, 4097]),
        2 => lent.rounds = 65,
        3 => drop(lent.red.pop()),
        4 => lent.decoder_work -= 1,
        5 => lent.parity[0] = 255,
        6 => *lent.info.last_mut().unwrap() = 2,
        _ => {}
    }
    lent
}

/// "For every list of decodes from an empty tally, each total equals the sum over the accepted ones; a refused decode changes no total." The
/// tally goes from call to call; the sums are made of what the decoder without a tally answers. Half of the lists start near 2^62,
/// so that the tally fills up on the way and the rest of the list is refused by 16.
pub fn lists_of_decodes(case: &mut Case) {
    let good = case.small();
    let start = if case.index % 2 == 0 { [0; 6] } else { [0, 1, 2, 3, 4, 5].map(|which| if which == case.index / 2 % 6 { LIMIT - 3 } else { 0 }) };
    let (mut tally, mut sums) = (start.to_vec(), start);
    for _ in 0..40 {
        let lent = some_frame(case, &good);
        let (after, counts) = case.decode_tallied(&lent, &tally);
        let (mut info, mut red, mut work) = (lent.info.clone(), lent.red.clone(), vec![0; lent.decoder_work]);
        let mut report = [0; REPORT];
        let number =
            host::decode(lent.design(), lent.blocks, lent.rounds, &lent.own, &lent.parity, &mut info, &mut red, &mut work, &mut report);
        if number == 0 && sums.iter().all(|&sum| sum <= LIMIT) {
            let [_, rounds, turned, outside, stuck] = report_numbers(report);
            let bits = (lent.info.len() + lent.red.len()) as u64;
            sums.iter_mut().zip([1, bits, turned, rounds, outside, stuck]).for_each(|(sum, more)| *sum += more);
        }
        case.meets("accepted", counts.is_ok());
        case.meets("refused by 16", matches!(counts, Err((16, _))));
        case.meets("refused by another rule", matches!(counts, Err((1..=10, _))));
        case.meets("refused by another rule, the tally full", number > 0 && tally.iter().any(|&total| total > LIMIT));
        case.meets("stuck words added", counts.is_ok_and(|counts| counts.stuck > 0));
        tally = after;
    }
    case.same("sums over the accepted decodes", sums.to_vec(), tally.clone());
    let _ = case.report(&tally);
}

/// Totals of 2^62 pass and those above are refused by 16, alone in each place and beside others; every other rule comes first, and a
/// tally of another length is refused 6 at 9, after the working bytes and before the lists.
pub fn full(case: &mut Case) {
    let good = case.small();
    let mut lent = case.frame(&good, 3);
    case.turn_bits(&mut lent, 30);
    let at = case.index;
    for (total, accepted) in [(LIMIT - 1, true), (LIMIT, true), (LIMIT + 1, false), (1 << 63, false), (u64::MAX, false)] {
        for others in [0, 1, LIMIT] {
            let mut tally = [others; 6];
            tally[at] = total;
            let (left, counts) = case.decode_tallied(&lent, &tally);
            case.same("accepted", accepted, counts.is_ok());
            if let Ok(counts) = counts {
                let grown = [1, (lent.info.len() + lent.red.len()) as u64, counts.turned, counts.rounds, counts.outside, counts.stuck][at];
                case.same("the total", total + grown, left[at]);
            } else {
                case.same("refused", (tally.to_vec(), Err((16, at as u64 + 1))), (left, counts));
            }
            // the first of several
            for second in 0..6 {
                let mut two = tally;
                two[second] = LIMIT + 1;
                let place = if accepted { second } else { second.min(at) };
                refused(case, "the first", &lent, &two, (16, place as u64 + 1));
            }
        }
    }
    let mut tally = vec![0; 6];
    tally[at] = LIMIT + 1;
    for (which, refusal) in [(0, (1, 1)), (1, (2, 16)), (2, (3, 4100)), (3, (4, 0)), (4, (5, 65)), (5, (6, 1)), (6, (6, 2)), (7, (6, 4)), (8, (6, 5)), (9, (6, 6))] {
        let mut wrong = lent.clone();
        match which {
            0 => wrong.m = 0,
            1 => (wrong.m, wrong.t, wrong.size) = (4, 1, 4),
            2 => (wrong.m, wrong.t, wrong.size) = (10, 2, 205),
            3 => wrong.blocks = 0,
            4 => wrong.rounds = 65,
            5 => wrong.own.push(0),
            6 => drop(wrong.parity.pop()),
            7 => wrong.info.push(0),
            8 => drop(wrong.red.pop()),
            _ => wrong.decoder_work -= 1,
        }
        for length in [6, 0, 5, 7, 64] {
            let mut other = tally.clone();
            other.resize(length, u64::MAX);
            refused(case, "before the tally", &wrong, &other, refusal);
        }
    }
    // 6 at 9 before 7, 10 and 16; 7 before 10 and 16; 10 before 16
    let mut listed = lent.clone();
    listed.parity[1] = 255;
    let last = lent.info.len() + lent.red.len() - 1;
    let mut bad = lent.clone();
    *bad.red.last_mut().unwrap() = 255;
    let mut both = bad.clone();
    both.parity[1] = 255;
    let order = good.d.order() as u64;
    for (wrong, refusal) in [(&lent, (16, at as u64 + 1)), (&listed, (7, order)), (&bad, (10, last as u64)), (&both, (7, order))] {
        refused(case, "with a full tally", wrong, &tally, refusal);
        for length in [0, 1, 5, 7, 12] {
            refused(case, "a tally of another length", wrong, &vec![LIMIT + 1; length], (6, 9));
        }
    }
}

/// Shares with small and large common factors, of any tally, and tallies of other lengths. Lowest terms by their meaning: the same
/// ratio, and for small numbers no smaller bottom with that ratio.
pub fn reports(case: &mut Case) {
    let mut shares = vec![];
    match case.index {
        0..=39 => shares.extend((0..=80).map(|turned| (turned, case.index as u64))), // bits 0 to 39
        40 => {
            // 0 of 0, some of 0, 0 of n, n of n, neighbours, the greatest
            for bits in [0, 1, 2, 3, LIMIT - 1, LIMIT, LIMIT + 1, 1 << 63, u64::MAX - 1, u64::MAX] {
                for turned in [0, 1, 2, bits / 2, bits.saturating_sub(1), bits, bits.saturating_add(1), LIMIT, u64::MAX] {
                    shares.push((turned, bits));
                }
            }
        }
        41 => {
            // neighbours in Fibonacci's row, for which remainders take the most steps; and multiples of them
            let (mut a, mut b) = (1u64, 1u64);
            while let Some(next) = a.checked_add(b) {
                (a, b) = (b, next);
                shares.extend([(a, b), (b, a)]);
                shares.extend([3, 1 << 20, 4_294_967_291].iter().filter_map(|factor| Some((a.checked_mul(*factor)?, b.checked_mul(*factor)?))));
            }
        }
        42 => shares.extend((0..64).flat_map(|a| (0..64).map(move |b| (1 << a, 1 << b)))),
        _ => {
            for _ in 0..200 {
                // a large or a small factor, times two numbers that may share more
                let (factor, other) = (case.rng.next() >> case.rng.below(64), case.rng.next() >> case.rng.below(64));
                let most = u64::MAX / factor.max(1);
                let (a, b) = (1 + other % most, 1 + case.rng.next() % most);
                shares.push((a * factor, b * factor));
                shares.push((case.rng.next() >> case.rng.below(64), case.rng.next() >> case.rng.below(64)));
            }
        }
    }
    for (turned, bits) in shares {
        let tally = [case.rng.next(), bits, turned, case.rng.next(), case.rng.next() >> case.rng.below(64), 0];
        let (top, bottom) = case.report(&tally).unwrap();
        case.meets("a common factor below 100", bits > 0 && turned > 0 && (2..100).contains(&(bits / bottom)));
        case.meets("a common factor above 2^32", bits > 0 && turned > 0 && bits / bottom > 1 << 32);
        case.meets("no sent bits, some turned", bits == 0 && turned > 0);
        if bits == 0 {
            case.same("no sent bits", (0, 1), (top, bottom));
            continue;
        }
        case.same("the same ratio", turned as u128 * bottom as u128, top as u128 * bits as u128);
        if bits <= 1000 {
            let least = (1..=bits as u128).find(|least| turned as u128 * least % bits as u128 == 0).unwrap();
            case.same("the least bottom", least, bottom as u128);
        }
    }
    for length in [0, 1, 5, 7, 8, 9, 12] {
        let other: Vec<u64> = (0..length).map(|_| case.rng.next()).collect();
        let found = case.report(&other);
        case.same("a tally of another length", Err((6, 9)), found);
    }
}

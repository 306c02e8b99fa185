//! The groups of cases on original staircase frames, and their three calls.
//!
//! - `rows`: small frames of m 4, t 1, M 5, by hand, and refusals of designs
//! - `design_rules`: m, t and M at the edges of rules 1, 2 and 19
//! - `frames`: encoding over old parity of any bytes, words all in the code, and how far a changed block reaches
//! - `bytes`: a byte above 1 at each place
//! - `few_wrong`: frames with at most t wrong bits a word
//! - `noise`: frames with far too many wrong bits
//! - `refusals`: every refusal at its edge, and each rule before those that come after it
//! - `large`: words of many bits, and as many blocks as there may be

use super::original::*;
use super::*;

extern "C" {
    fn bauchleton_original_encode(
        m: u64, t: u64, size: u64, blocks: u64, buffer: *mut u8, buffer_length: usize, report: *mut u8, report_length: usize,
    ) -> u64;
    fn bauchleton_original_check_words(
        m: u64, t: u64, size: u64, blocks: u64, buffer: *const u8, buffer_length: usize, answer: *mut u64, answer_length: usize,
    ) -> u64;
    fn bauchleton_original_decode(
        m: u64, t: u64, size: u64, blocks: u64, rounds: u64, buffer: *mut u8, buffer_length: usize, work: *mut u8, work_length: usize,
        report: *mut u8, report_length: usize,
    ) -> u64;
}

/// The number of a result and what is left in the report: "five numbers of eight bytes, low byte first: place, rounds, turned, outside, stuck, 0 for
/// what it lacks". A report of another length stays as it is.
fn reported<T>(result: &Answer<T>, old: &[u8], counts: impl Fn(&T) -> Counts) -> (u64, Vec<u8>) {
    let (number, place, counts) = match result {
        Ok(value) => (0, 0, counts(value)),
        Err((number, place)) => (*number, *place, Counts { rounds: 0, turned: 0, outside: 0, stuck: 0 }),
    };
    let numbers = [place, counts.rounds, counts.turned, counts.outside, counts.stuck];
    let bytes: Vec<u8> = numbers.iter().flat_map(|number| number.to_le_bytes()).collect();
    (number, if old.len() == bytes.len() { bytes } else { old.to_vec() })
}

/// What is left of an accepted decode, and what it counts.
type Decoded = (Vec<u8>, Counts);

impl Case<'_> {
    /// The answer is the buffer, by the reference.
    fn original_encode(&mut self, l: &Stair) -> Answer<Vec<u8>> {
        let (result, old) = (original_encode(l), self.rng.bytes(l.report));
        let (number, report) = reported(&result, &old, |_| Counts { rounds: 0, turned: 0, outside: 0, stuck: 0 });
        let left = result.as_ref().unwrap_or(&l.buffer).clone();
        let expected = Expected { number, told: vec![], buffers: vec![left, report] };
        self.call("original_encode", &[&l.buffer, &old], 0, expected, |b, _, _| {
            let [buffer, report] = b else { unreachable!() };
            let (x, xl, y, yl) = (buffer.as_mut_ptr(), buffer.len(), report.as_mut_ptr(), report.len());
            unsafe { bauchleton_original_encode(l.m, l.t, l.size, l.blocks, x, xl, y, yl) }
        });
        result
    }
    /// The answer is the number of words outside, by the reference.
    fn original_words(&mut self, l: &Stair) -> Answer<u64> {
        let result = original_words(l);
        let (number, told) = answered(&result, |&outside| vec![outside], 2);
        let expected = Expected { number, told, buffers: vec![l.buffer.clone()] };
        self.call("original_check_words", &[&l.buffer], 0, expected, |b, _, a| unsafe {
            bauchleton_original_check_words(l.m, l.t, l.size, l.blocks, b[0].as_ptr(), b[0].len(), a.as_mut_ptr(), a.len())
        });
        result
    }
    /// The answer is what is left in the buffer, the counts, and what the rounds did beside them, by the reference.
    fn original_decode(&mut self, l: &Stair) -> Answer<(Decoded, Turns)> {
        let (result, old) = (original_decode(l), self.rng.bytes(l.report));
        let (number, report) = reported(&result, &old, |(_, counts, _)| *counts);
        let left = result.as_ref().map_or(&l.buffer, |(buffer, ..)| buffer).clone();
        let expected = Expected { number, told: vec![], buffers: vec![left, report] };
        self.call("original_decode", &[&l.buffer, &old], l.work, expected, |b, w, _| {
            let [buffer, report] = b else { unreachable!() };
            let (x, xl, y, yl) = (buffer.as_mut_ptr(), buffer.len(), report.as_mut_ptr(), report.len());
            unsafe { bauchleton_original_decode(l.m, l.t, l.size, l.blocks, l.rounds, x, xl, w.as_mut_ptr(), w.len(), y, yl) }
        });
        result.map(|(buffer, counts, turns)| ((buffer, counts), turns))
    }
    /// The three calls.
    fn originals(&mut self, l: &Stair) {
        let _ = self.original_encode(l);
        let _ = self.original_words(l);
        let _ = self.original_decode(l);
    }
    /// A frame of random information, encoded by the reference.
    fn original_frame(&mut self, shape: &Original) -> Stair {
        let bits = self.rng.bits(shape.length());
        lent(shape, shape.encoded(&bits))
    }
}

/// A buffer with a report and working bytes of the right lengths.
fn lent(shape: &Original, buffer: Vec<u8>) -> Stair {
    let d = shape.d;
    Stair { m: d.m, t: d.t, size: d.size, blocks: shape.blocks as u64, rounds: 0, buffer, work: shape.work(), report: 40 }
}

/// Designs of all pairs m, t with at most so many rows a block: thin, middle and largest ones, and those of document 02's readers.
pub fn original_designs(rows: u64) -> Vec<Design> {
    let mut all = vec![];
    for (m, t) in (4..=10).flat_map(|m| (1..=3).map(move |t| (m, t))) {
        let fitting: Vec<u64> = (1..=500).filter(|&size| original_design(m, t, size).is_ok()).collect();
        let (Some(&first), Some(&last)) = (fitting.first(), fitting.last()) else { continue };
        let mut sizes = vec![first, first + 1, (first + last) / 2, last - 1, last];
        sizes.retain(|size| fitting.contains(size) && *size <= rows);
        sizes.sort();
        sizes.dedup();
        all.extend(sizes.into_iter().map(|size| Design { m, t, size }));
    }
    all.extend([(4, 1, 5), (4, 1, 7), (5, 2, 11), (6, 3, 19)].map(|(m, t, size)| Design { m, t, size }));
    all
}

/// The design of a case of a group that takes each design so many times, and which time it is.
fn chosen(case: &Case) -> (Design, usize) {
    let all = original_designs(40);
    (all[case.index % all.len()], case.index / all.len())
}

// ---------------------------------------------------------------- By hand

/// M 5, r 4: a row has one bit of information and four of parity. A one at row 0, column 0 of block 1 carries x^4, so its parity is 0011; what it makes
/// of columns 0, 3 and 4 is position 0 of words 0, 3 and 4 of block 2 and carries x^9, so their parity is 1010.
pub fn rows(case: &mut Case) {
    let shape = Original::new(original_design(4, 1, 5).unwrap(), 2);
    let one = ["10011", "00000", "00000", "00000", "00000", "01010", "00000", "00000", "01010", "01010"];
    let bits = |rows: &[&str]| -> Vec<u8> { rows.concat().bytes().map(|byte| byte - b'0').collect() };
    let sent = bits(&one);
    let mut old = sent.clone();
    (0..old.len()).filter(|place| place % 5 > 0).for_each(|place| old[place] = 255);
    let found = case.original_encode(&lent(&shape, old));
    case.same("a one in block 1", Ok(sent.clone()), found);
    let single = Original::new(shape.d, 1);
    let found = case.original_encode(&lent(&single, [vec![1], vec![9; 4], vec![0; 20]].concat()));
    case.same("the same, one block", Ok(sent[..25].to_vec()), found);

    // The word of row 0 of block 1 has remainder x^9, the unsent position 0: it is stuck. Words 1 and 3 of block 2 turn both ones.
    let zero = vec![0; 50];
    let mut unsent = zero.clone();
    (unsent[1], unsent[3]) = (1, 1);
    let turned = |from: &[u8], place: usize| -> Vec<u8> { from.iter().enumerate().map(|(at, bit)| bit ^ (at == place) as u8).collect() };
    let last = turned(&sent, 49);
    for (shape, received, rounds, left, counts) in [
        (&shape, sent.clone(), 0, sent.clone(), (1, 0, 0, 0)),
        (&shape, sent.clone(), 1, sent.clone(), (1, 0, 0, 0)),
        (&shape, turned(&sent, 0), 0, sent.clone(), (2, 1, 0, 0)),
        (&shape, turned(&sent, 0), 1, sent.clone(), (1, 1, 0, 0)),
        (&shape, last, 64, sent.clone(), (2, 1, 0, 0)),
        (&shape, unsent.clone(), 0, zero.clone(), (2, 2, 0, 0)),
        (&shape, unsent.clone(), 1, zero.clone(), (1, 2, 0, 1)),
        (&single, unsent[..25].to_vec(), 0, unsent[..25].to_vec(), (1, 0, 1, 1)),
    ] {
        let (rounds_made, turned, outside, stuck) = counts;
        let found = case.original_decode(&Stair { rounds, ..lent(shape, received) }).map(|(decoded, _)| decoded);
        case.same("a decode by hand", Ok((left, Counts { rounds: rounds_made, turned, outside, stuck })), found);
    }
    for (buffer, outside) in [(&sent, 0), (&zero, 0), (&unsent, 3), (&turned(&sent, 0), 2), (&turned(&sent, 49), 1)] {
        let found = case.original_words(&lent(&shape, buffer.clone()));
        case.same("words outside by hand", Ok(outside), found);
    }

    for (m, t, size, expected) in [
        (4, 1, 4, Some((19, 4))),
        (4, 1, 5, None),
        (4, 1, 6, None),
        (4, 1, 7, None),
        (4, 1, 8, Some((2, 16))),
        (4, 2, 7, Some((19, 8))),
        (4, 2, 8, Some((2, 16))),
        (4, 3, 7, Some((19, 12))),
        (5, 2, 10, Some((19, 10))),
        (5, 2, 11, None),
        (5, 3, 15, Some((19, 15))),
        (5, 3, 16, Some((2, 32))),
        (8, 3, 127, None),
        (8, 3, 128, Some((2, 256))),
        (10, 3, 30, Some((19, 30))),
        (10, 3, 31, None),
        (10, 3, 500, None),
        (10, 3, 501, Some((1, 3))),
    ] {
        let stair = Stair { m, t, size, blocks: 1, rounds: 0, buffer: vec![], work: 0, report: 40 };
        // an accepted design is refused for its empty buffer
        let expected = expected.unwrap_or((6, 4));
        let found = (case.original_encode(&stair), case.original_words(&stair), case.original_decode(&stair).map(|(decoded, _)| decoded));
        case.same("a design by hand", (Err(expected), Err(expected), Err(expected)), found);
    }
}

const NUMBERS_OF_M: [u64; 13] = [0, 3, 4, 5, 6, 7, 8, 9, 10, 11, 255, (1 << 32) + 4, u64::MAX];

/// M at the edges, for each m and t: an empty buffer, and one of the right length where it is short.
pub fn design_rules(case: &mut Case) {
    let (m, t) = (NUMBERS_OF_M[case.index % 13], [0, 1, 2, 3, 4][case.index / 13]);
    let (r, half) = (m.wrapping_mul(t), 1u64.checked_shl(m as u32).unwrap_or(0).wrapping_sub(1) / 2);
    let mut sizes = vec![0, 1, 2, 4, 22, 499, 500, 501, 1 << 32, (1 << 32) + 5, u64::MAX];
    sizes.extend([r, half].iter().flat_map(|&at| [-2, -1, 0, 1, 2].map(|by| at.wrapping_add_signed(by))));
    for size in sizes {
        let empty = Stair { m, t, size, blocks: 1, rounds: 0, buffer: vec![], work: 0, report: 40 };
        case.originals(&empty);
        case.originals(&Stair { blocks: 0, rounds: 65, ..empty.clone() });
        case.originals(&Stair { report: 39, ..empty });
        if let (true, Ok(d)) = (size <= 64, original_design(m, t, size)) {
            let shape = Original::new(d, 1);
            let buffer = case.rng.bits(shape.length());
            case.originals(&lent(&shape, buffer));
        }
    }
}

// ---------------------------------------------------------------- Encoding

/// "The parity is the only one that makes every row a codeword": any old parity gives the same bytes, of which every word is in the code, and the
/// information stays. "a changed block may alter its own and every later parity, never an earlier one": it alters the next one's and no more, since the
/// changes of its rows are words that the generator divides, and so are those of the next block's columns, which are sums of them.
pub fn frames(case: &mut Case) {
    let (d, time) = chosen(case);
    let shape = Original::new(d, 1 + time % 5);
    let information = case.rng.bits(shape.length());
    let mut encoded = vec![];
    for kind in 0..4 {
        let mut buffer = information.clone();
        for place in (0..buffer.len()).filter(|&place| shape.is_parity(place)) {
            buffer[place] = [0, 255, case.rng.next() as u8, 2 + (place % 2) as u8][kind];
        }
        let stair = lent(&shape, buffer.clone());
        let made = case.original_encode(&stair).unwrap();
        case.check("information stays", (0..buffer.len()).all(|place| shape.is_parity(place) || made[place] == buffer[place]));
        encoded.push(made);
        // the other two calls judge all bytes
        let (words, decoded) = (case.original_words(&stair), case.original_decode(&stair));
        if kind == 1 {
            let first = (d.side() - d.r()) as u64;
            case.same("old parity judged", (Err((10, first)), Err((10, first))), (words, decoded.map(|_| ())));
        }
    }
    case.check("one parity", encoded.iter().all(|made| *made == encoded[0]));
    let sent = encoded.remove(0);
    let again = case.original_encode(&lent(&shape, sent.clone()));
    case.same("encoded again", Ok(sent.clone()), again);
    let found = case.original_words(&lent(&shape, sent.clone()));
    case.same("every word in the code", Ok(0), found);
    let found = case.original_decode(&lent(&shape, sent.clone())).map(|(decoded, _)| decoded);
    case.same("idle", Ok((sent.clone(), Counts { rounds: 1, turned: 0, outside: 0, stuck: 0 })), found);

    let area = d.side() * d.side();
    for block in 0..shape.blocks {
        let mut other = sent.clone();
        let places: Vec<usize> = (block * area..(block + 1) * area).filter(|&place| !shape.is_parity(place)).collect();
        let order = case.rng.permutation(places.len());
        order.iter().take(1 + case.rng.below(3)).for_each(|&at| other[places[at]] ^= 1);
        let changed = case.original_encode(&lent(&shape, other)).unwrap();
        case.same("blocks before a changed one", &sent[..block * area], &changed[..block * area]);
        let differ: Vec<bool> = sent.chunks(area).zip(changed.chunks(area)).map(|(before, after)| before != after).collect();
        case.meets("a change that reaches the next block", block + 1 < shape.blocks && differ[block + 1]);
        case.check("no block after the next", differ.iter().skip(block + 2).all(|&differ| !differ));
    }

    // turned parity puts words outside the code, and no other choice of parity has none outside
    let parity: Vec<usize> = (0..sent.len()).filter(|&place| shape.is_parity(place)).collect();
    for count in [1, 2, 3, d.r()] {
        let mut other = sent.clone();
        (0..count).for_each(|_| other[case.rng.pick(&parity)] ^= 1);
        let found = case.original_words(&lent(&shape, other.clone()));
        case.check("another parity", (other == sent) == (found == Ok(0)));
    }
}

/// A byte above 1 at each place of a small frame: the encoder judges the information alone, the other two calls all bytes.
pub fn bytes(case: &mut Case) {
    let (m, t, size, blocks) = [(4, 1, 5, 1), (4, 1, 5, 3), (4, 1, 7, 2), (5, 2, 11, 2)][case.index];
    let shape = Original::new(original_design(m, t, size).unwrap(), blocks);
    let sent = case.original_frame(&shape);
    for place in 0..sent.buffer.len() {
        let mut stair = sent.clone();
        stair.buffer[place] = case.rng.pick(&[2, 3, 128, 254, 255]);
        let refused = Err((10, place as u64));
        let found = case.original_encode(&stair);
        case.same("the encoder", if shape.is_parity(place) { Ok(sent.buffer.clone()) } else { refused }, found);
        let found = (case.original_words(&stair), case.original_decode(&stair).map(|_| ()));
        case.same("the other two", (Err((10, place as u64)), Err((10, place as u64))), found);
        // beside a later byte
        let later = place + case.rng.below(sent.buffer.len() - place);
        stair.buffer[later] = 2;
        case.originals(&stair);
    }
}

// ---------------------------------------------------------------- Decoding

/// For each bit of the buffer, the words that have it.
fn holders(words: &[Word], length: usize) -> Vec<Vec<usize>> {
    let mut holders = vec![vec![]; length];
    for (w, word) in words.iter().enumerate() {
        word.iter().flatten().for_each(|&place| holders[place].push(w));
    }
    holders
}

/// Places with at most t in each word: some of them, or in a random order as many as there is room for.
fn within(rng: &mut Rng, shape: &Original, most: usize) -> Vec<usize> {
    let words = shape.words();
    let holders = holders(&words, shape.length());
    let mut wrong = vec![0; words.len()];
    let mut places = vec![];
    for place in rng.permutation(shape.length()) {
        if places.len() < most && holders[place].iter().all(|&w| wrong[w] < shape.d.t) {
            holders[place].iter().for_each(|&w| wrong[w] += 1);
            places.push(place);
        }
    }
    places
}

/// In every second block t places in each row and in each column: each word has t, but for those of block 1 where it has none.
fn every_second(shape: &Original, first: usize, shift: usize) -> Vec<usize> {
    let (side, t) = (shape.d.side(), shape.d.t as usize);
    let rows = (first..shape.blocks).step_by(2).flat_map(|block| (0..side).map(move |a| (block, a)));
    rows.flat_map(|(block, a)| (0..t).map(move |k| block * side * side + a * side + (a + shift + k) % side)).collect()
}

/// "copies with at most t wrong bits a word are recovered": whatever the rounds are; the bits that differ are then the link's wrong ones.
pub fn few_wrong(case: &mut Case) {
    let (d, time) = chosen(case);
    let shape = Original::new(d, 1 + case.rng.below(5));
    let sent = case.original_frame(&shape);
    let shift = case.rng.below(d.side());
    let places = match time {
        0 => within(&mut case.rng, &shape, 1),
        1 => within(&mut case.rng, &shape, d.side()),
        2 | 3 => within(&mut case.rng, &shape, usize::MAX),
        _ => every_second(&shape, time % 2, shift),
    };
    let mut stair = sent.clone();
    places.iter().for_each(|&place| stair.buffer[place] ^= 1);
    let words = shape.words();
    let wrong: Vec<u64> = words.iter().map(|word| word.iter().flatten().filter(|place| places.contains(place)).count() as u64).collect();
    case.check("at most t a word", wrong.iter().all(|&count| count <= d.t));
    case.meets("t wrong bits in every word, several blocks", shape.blocks > 1 && wrong.iter().all(|&count| count == d.t));
    case.meets("t wrong bits in every word of block 1", wrong[..d.side()].iter().all(|&count| count == d.t));
    let outside = wrong.iter().filter(|&&count| count > 0).count() as u64;
    let found = case.original_words(&stair);
    case.same("words outside", Ok(outside), found);
    for rounds in [0, 1, 2, 12, 64] {
        stair.rounds = rounds;
        let counts = Counts { rounds: if places.is_empty() || rounds == 1 { 1 } else { 2 }, turned: places.len() as u64, outside: 0, stuck: 0 };
        let found = case.original_decode(&stair).map(|(decoded, _)| decoded);
        case.same("as sent", Ok((sent.buffer.clone(), counts)), found);
    }
}

/// Places to turn so that so many words of block 1 are one change of an unsent bit away from a codeword, some with another change beside it.
fn beside_unsent(rng: &mut Rng, shape: &Original, count: usize) -> Vec<usize> {
    let (side, r) = (shape.d.side(), shape.d.r());
    let mut places = vec![];
    for a in rng.permutation(side).into_iter().take(count) {
        let word = shape.word(1, a);
        let rest = power_remainder(2 * side - 1 - rng.below(side), shape.g);
        places.extend((0..r).filter(|j| rest >> (r - 1 - j) & 1 == 1).map(|j| word[2 * side - r + j].unwrap()));
        if rng.below(2) == 0 {
            places.extend(word[side + rng.below(side)]);
        }
    }
    places
}

/// Frames of 1 to 5 blocks with wrong bits of every kind, up to all of them.
pub fn noise(case: &mut Case) {
    let (d, time) = chosen(case);
    let shape = Original::new(d, 1 + case.rng.below(5));
    let mut stair = case.original_frame(&shape);
    let length = stair.buffer.len();
    stair.rounds = [0, 1, 2, 12, 64, 3, 63][case.rng.below(7)];
    let mut needs_unsent = false;
    match time {
        0 => stair.buffer = case.rng.bits(length),
        1 => stair.buffer = vec![1; length],
        2 | 3 => {
            let words = [d.side(), 1][time - 2];
            let places = beside_unsent(&mut case.rng, &shape, words);
            places.iter().for_each(|&place| stair.buffer[place] ^= 1);
            needs_unsent = true;
        }
        4 => {
            // a run
            let from = case.rng.below(length);
            let to = (from + 1 + case.rng.below(3 * d.side())).min(length);
            (from..to).for_each(|place| stair.buffer[place] ^= 1);
        }
        5 => {
            // about t + 1 wrong bits in some words
            for word in shape.words() {
                let few = case.rng.below(d.t as usize + 2);
                (0..few).filter_map(|_| word[case.rng.below(2 * d.side())]).for_each(|place| stair.buffer[place] ^= 1);
            }
        }
        kind => {
            let odds = [500, 100, 60, 40, 30, 20, 15, 12, 10, 8, 6, 5, 4, 3][kind - 6];
            (0..length).filter(|_| case.rng.below(odds) == 0).for_each(|place| stair.buffer[place] ^= 1);
        }
    }
    let _ = case.original_words(&stair);
    let ((left, counts), turns) = case.original_decode(&stair).unwrap();
    let limit = if stair.rounds == 0 { 12 } else { stair.rounds };
    case.check("rounds", 1 <= counts.rounds && counts.rounds <= limit);
    if counts.rounds < limit {
        case.same("stuck in an idle round", counts.outside, counts.stuck);
    }
    let found = case.original_words(&lent(&shape, left.clone()));
    case.same("words outside at the end", Ok(counts.outside), found);
    case.meets("all of the 12 rounds that 0 stands for, bits turned in the last", stair.rounds == 0 && counts.rounds == 12);
    case.meets("64 rounds", counts.rounds == 64);
    case.meets("more than two rounds, none outside", counts.rounds > 2 && counts.outside == 0);
    case.meets("fewer words stuck than outside", counts.stuck < counts.outside);
    case.meets("more words stuck than outside", counts.stuck > counts.outside);
    case.meets("a round that turns bits and turns them back", turns.undone_rounds > 0);
    case.meets("bits turned back", turns.turns > counts.turned);
    case.meets("words beside block 0 that stay outside", needs_unsent && counts.outside > 0);
    case.meets("words beside block 0 that later words free", needs_unsent && shape.blocks > 1 && counts.rounds == 1 && counts.stuck > counts.outside);
    // "if a decode ends with no word outside, any larger number of rounds gives the same bits"
    if counts.outside == 0 {
        let more = case.original_decode(&Stair { rounds: 64, ..stair }).map(|((buffer, _), _)| buffer);
        case.same("more rounds", Ok(left), more);
    }
}

// ---------------------------------------------------------------- Refusals

/// The calls that have a rule.
#[derive(Clone, Copy, PartialEq)]
enum Has {
    All,
    Decoder,
    Reports,
    NotEncoder,
}

/// Every refusal alone, beside each one that comes later, and at lengths near the right one.
pub fn refusals(case: &mut Case) {
    let (m, t, size) = [(4, 1, 5), (4, 1, 7), (5, 2, 11), (6, 3, 19)][case.index % 4];
    let shape = Original::new(original_design(m, t, size).unwrap(), 1 + case.index / 4);
    let mut right = case.original_frame(&shape);
    (0..right.buffer.len()).filter(|_| case.rng.below(30) == 0).for_each(|place| right.buffer[place] ^= 1);
    let last = right.buffer.len() as u64 - 1;
    let before = last - shape.d.r() as u64;
    let wrong: [(fn(&mut Stair), Refusal, Has); 19] = [
        (|l| l.m = 11, (1, 1), Has::All),
        (|l| l.t = 0, (1, 2), Has::All),
        (|l| l.size = 501, (1, 3), Has::All),
        (|l| (l.m, l.t, l.size) = (4, 1, 8), (2, 16), Has::All),
        (|l| (l.m, l.t, l.size) = (4, 2, 8), (2, 16), Has::All),
        (|l| (l.m, l.t, l.size) = (4, 1, 4), (19, 4), Has::All),
        (|l| (l.m, l.t, l.size) = (6, 3, 18), (19, 18), Has::All),
        (|l| l.blocks = 0, (4, 0), Has::All),
        (|l| l.blocks = 4097, (4, 4097), Has::All),
        (|l| l.blocks = u64::MAX, (4, u64::MAX), Has::All),
        (|l| l.rounds = 65, (5, 65), Has::Decoder),
        (|l| l.rounds = u64::MAX, (5, u64::MAX), Has::Decoder),
        (|l| l.buffer.push(0), (6, 4), Has::All),
        (|l| l.work /= 2, (6, 6), Has::Decoder),
        (|l| l.work += 1, (6, 6), Has::Decoder),
        (|l| l.report = 39, (6, 8), Has::Reports),
        (|l| l.report = 41, (6, 8), Has::Reports),
        // the last bit of information, if the buffer has it still
        (|l| mark(l, 1 + l.m as usize * l.t as usize), (10, before), Has::All),
        (|l| mark(l, 1), (10, last), Has::NotEncoder),
    ];
    let expected = |spoiled: &[usize], has: &[Has]| spoiled.iter().find(|&&at| has.contains(&wrong[at].2)).map(|&at| wrong[at].1);
    let tried = |case: &mut Case, spoiled: &[usize]| {
        let mut stair = right.clone();
        // from the last rule to the first, so that no spoiled number stands in the way of a later one's place
        spoiled.iter().rev().for_each(|&at| wrong[at].0(&mut stair));
        let found = case.original_encode(&stair);
        case.same("encode", expected(spoiled, &[Has::All, Has::Reports]), found.err());
        let found = case.original_words(&stair);
        case.same("check_words", expected(spoiled, &[Has::All, Has::NotEncoder]), found.err());
        let found = case.original_decode(&stair);
        case.same("decode", expected(spoiled, &[Has::All, Has::Decoder, Has::Reports, Has::NotEncoder]), found.err());
    };
    for first in 0..wrong.len() {
        tried(case, &[first]);
        for second in first + 1..wrong.len() {
            tried(case, &[first, second]);
        }
    }
    for rounds in [0, 1, 2, 12, 63, 64] {
        let found = case.original_decode(&Stair { rounds, ..right.clone() });
        case.check("accepted", found.is_ok());
    }
    let area = right.buffer.len() / shape.blocks;
    let information = shape.blocks * shape.d.side() * (shape.d.side() - shape.d.r());
    for length in [0, 1, area - 1, right.buffer.len() - 1, right.buffer.len() + area, right.buffer.len() - area, information] {
        let mut stair = right.clone();
        stair.buffer.resize(length, 0);
        case.originals(&stair);
    }
    let words = 4 * shape.blocks * shape.d.side();
    for work in [0, 1, words, words + right.buffer.len(), words + right.buffer.len() / 8, words + (right.buffer.len() + 7) / 8, right.work + 8] {
        case.originals(&Stair { work, ..right.clone() });
    }
    for report in [0, 1, 5, 8, 32, 39, 40, 41, 48, 80, 320] {
        case.originals(&Stair { report, ..right.clone() });
    }
    // an answer of another length is left
    for extra in [-2, -1, 1, 38] {
        case.answer_extra = extra;
        let _ = case.original_words(&right);
        let _ = case.original_words(&Stair { blocks: 0, ..right.clone() });
    }
    case.answer_extra = 0;
}

/// Puts a byte that is no bit at the place that so many bytes follow or that is the last of them.
fn mark(l: &mut Stair, from_end: usize) {
    let length = l.buffer.len();
    l.buffer[length - from_end] = 2;
}

// ---------------------------------------------------------------- Large frames

/// How many cases `large` has.
pub const LARGE: usize = 16;

/// Rule 3 does not apply to M 500 with r 30, of which M × r is 15,000. As many blocks as there may be, and one fewer.
pub fn large(case: &mut Case) {
    let (m, t, size, blocks) =
        [(10, 3, 500, 1), (10, 3, 31, 3), (10, 1, 500, 2), (9, 3, 255, 2), (8, 3, 127, 3), (7, 3, 63, 5), (4, 1, 5, 4096), (4, 1, 7, 4095)][case.index % 8];
    let shape = Original::new(original_design(m, t, size).unwrap(), blocks);
    let mut stair = case.original_frame(&shape);
    let sent = stair.buffer.clone();
    if case.index < 8 {
        (0..sent.len()).filter(|&place| shape.is_parity(place)).for_each(|place| stair.buffer[place] = 255);
        let found = case.original_encode(&stair);
        case.check("encoded", found.as_ref() == Ok(&sent));
        stair.buffer = sent.clone();
        let places = within(&mut case.rng, &shape, usize::MAX);
        places.iter().for_each(|&place| stair.buffer[place] ^= 1);
        let found = case.original_decode(&stair).unwrap().0;
        let counts = Counts { rounds: 2, turned: places.len() as u64, outside: 0, stuck: 0 };
        case.check("as sent", found == (sent, counts));
    } else {
        let odds = case.rng.pick(&[25, 60, 150]);
        (0..sent.len()).filter(|_| case.rng.below(odds) == 0).for_each(|place| stair.buffer[place] ^= 1);
        let _ = case.original_words(&stair);
        let ((left, _), _) = case.original_decode(&stair).unwrap();
        case.meets("not as sent", left != sent);
    }
}

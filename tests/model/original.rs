//! Document 02's original staircase frames (U12), written a second time from the documents' text alone, over what `reference` has of document 01.
//!
//! - `original_design`: rules 1, 2 and 19
//! - `Original`: where each bit of each word stands, and which bits are parity
//! - `Stair`: what the three calls are lent
//! - `original_sizes`, `original_encode`, `original_words`, `original_decode`: the calls
//!
//! "Whole blocks stand in one buffer": a sent bit is its place in it.

use crate::reference::*;

/// Rules 1, 2 and 19: "Rule 2 reads 2M for n; rule 3 doesn't apply. Refused: 19 thin, after 2, when r is at least M; the place is r."
pub fn original_design(m: u64, t: u64, size: u64) -> Answer<Design> {
    for (place, number, range) in [(1, m, 4..=10), (2, t, 1..=3), (3, size, 1..=500)] {
        if !range.contains(&number) {
            return Err((1, place));
        }
    }
    let d = Design { m, t, size };
    if 2 * size > (1 << m) - 1 {
        return Err((2, 2 * size));
    }
    if d.r() >= d.side() {
        return Err((19, d.r() as u64));
    }
    Ok(d)
}

/// A design and a number of blocks.
pub struct Original {
    pub d: Design,
    pub blocks: usize,
    /// the generator
    pub g: u64,
}

impl Original {
    pub fn new(d: Design, blocks: usize) -> Original {
        Original { d, blocks, g: generator(d.m, d.t) }
    }
    /// Bytes of the buffer.
    pub fn length(&self) -> usize {
        self.blocks * self.d.side() * self.d.side()
    }
    /// Row a, column b of a block. "Block 0 is zero and not sent."
    fn bit(&self, block: usize, a: usize, b: usize) -> Option<usize> {
        let side = self.d.side();
        block.checked_sub(1).map(|before| before * side * side + a * side + b)
    }
    /// Row a "of the transpose of block i-1 beside block i".
    pub fn word(&self, i: usize, a: usize) -> Word {
        let side = self.d.side();
        (0..side).map(|j| self.bit(i - 1, j, a)).chain((0..side).map(|j| self.bit(i, a, j))).collect()
    }
    /// "A round takes the blocks in order, in each the rows 0 to M - 1".
    pub fn words(&self) -> Vec<Word> {
        (1..=self.blocks).flat_map(|i| (0..self.d.side()).map(move |a| (i, a))).map(|(i, a)| self.word(i, a)).collect()
    }
    /// "its last r columns the parity"
    pub fn is_parity(&self, place: usize) -> bool {
        place % self.d.side() >= self.d.side() - self.d.r()
    }
    /// The number of words that the generator doesn't divide.
    pub fn outside(&self, buffer: &[u8]) -> u64 {
        outside(self.g, &self.words(), buffer)
    }
    /// working bytes of the decoder: a number of four bytes for each word, and a bit for each bit of the buffer, eight in a byte
    pub fn work(&self) -> usize {
        4 * self.blocks * self.d.side() + (self.length() + 7) / 8
    }
    /// "the parity of the rows of the transpose of block i-1 beside block i", row by row and block by block.
    pub fn encoded(&self, buffer: &[u8]) -> Vec<u8> {
        let (side, r) = (self.d.side(), self.d.r());
        let mut buffer = buffer.to_vec();
        for word in self.words() {
            let (information, parity) = word.split_at(2 * side - r);
            let bits = check_bits(information.iter().map(|bit| bit.map_or(0, |place| buffer[place])), r, self.g);
            parity.iter().zip(bits).for_each(|(place, bit)| buffer[place.unwrap()] = bit);
        }
        buffer
    }
}

/// What the calls are lent beside working bytes; `report` is the number of its bytes, if the call has one.
#[derive(Clone)]
pub struct Stair {
    pub m: u64,
    pub t: u64,
    pub size: u64,
    pub blocks: u64,
    pub rounds: u64,
    pub buffer: Vec<u8>,
    pub work: usize,
    pub report: usize,
}

/// Rules 1, 2, 19, 4, 5 and 6, as far as the call has them: "The buffer has place 4 in rule 6". A report of other than 40 bytes is place 8.
fn judged(lent: &Stair, rounds: bool, work: bool, report: bool) -> Answer<Original> {
    let d = original_design(lent.m, lent.t, lent.size)?;
    let shape = Original::new(d, block_count(lent.blocks)?);
    if rounds && lent.rounds > 64 {
        return Err((5, lent.rounds));
    }
    let places = [(4, lent.buffer.len(), shape.length(), true), (6, lent.work, shape.work(), work), (8, lent.report, 40, report)];
    match places.iter().find(|(_, length, right, has)| *has && length != right) {
        Some(&(place, ..)) => Err((6, place)),
        None => Ok(shape),
    }
}

/// Rule 10 over the bytes that are judged.
fn bits(lent: &Stair, judged: impl Fn(usize) -> bool) -> Answer<()> {
    match lent.buffer.iter().enumerate().find(|&(place, &byte)| judged(place) && byte > 1) {
        Some((place, _)) => Err((10, place as u64)),
        None => Ok(()),
    }
}

/// Rules 1, 2, 19 and 4: r, "word length is 2M", and the lengths of the buffer and of the decoder's working bytes.
pub fn original_sizes(m: u64, t: u64, size: u64, blocks: u64) -> Answer<Vec<u64>> {
    let d = original_design(m, t, size)?;
    let frame = Original { d, blocks: block_count(blocks)?, g: 0 };
    Ok(vec![d.r() as u64, 2 * size, frame.length() as u64, frame.work() as u64])
}

/// The encoder: "the encoder writes only their last r columns", and "doesn't judge old parity by rule 10". The answer is the buffer.
pub fn original_encode(lent: &Stair) -> Answer<Vec<u8>> {
    let shape = judged(lent, false, false, true)?;
    bits(lent, |place| !shape.is_parity(place))?;
    Ok(shape.encoded(&lent.buffer))
}

/// The word check. The answer is the number of words outside the code.
pub fn original_words(lent: &Stair) -> Answer<u64> {
    let shape = judged(lent, false, false, false)?;
    bits(lent, |_| true)?;
    Ok(shape.outside(&lent.buffer))
}

/// The decoder: "the results are those of frames", and "A rounds number of 0 now stands for 12". The answer is the mended buffer, the counts, and
/// what the rounds did beside them.
pub fn original_decode(lent: &Stair) -> Answer<(Vec<u8>, Counts, Turns)> {
    let shape = judged(lent, true, true, true)?;
    bits(lent, |_| true)?;
    let mut buffer = lent.buffer.clone();
    let limit = if lent.rounds == 0 { 12 } else { lent.rounds };
    let patterns = Patterns::of_length(2 * shape.d.side(), shape.d.t, shape.g);
    let (rounds, stuck, turns) = make_rounds(shape.g, &patterns, &shape.words(), &mut buffer, limit);
    let counts = Counts { rounds, turned: differing(&lent.buffer, &buffer), outside: shape.outside(&buffer), stuck };
    Ok((buffer, counts, turns))
}

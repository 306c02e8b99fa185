//! Document 01, document 02's U1 to U3, U5 to U9 and U11, and the decision on mixed lists (docs/DECISIONS.md) written a second time,
//! from their text alone: small, literal and slow.
//! It shares nothing with the library. Everything that they define is a function here:
//!
//! - `design`, `powers`, `minimal`, `generator`, `remainder`: rules 1 to 3 and BCH words
//! - `Shape`, `check_word`, `words_outside`, `outside`: where each bit of each word of a frame stands; words that are checked
//! - `sums`, `system`, `check_kit`: A y + c, A, and the verdict on a kit
//! - `first_dependent`, `inverse`, `make_inverse`: rule 14's column, W by elimination, and the maker
//! - `turned`, `spread_lists`, `mixed`, `mixed_lists`: spread lists and mixed lists
//! - `Verdict`, `mend_word`, `Counts`, `make_rounds`, `mend`, `turns`: what mending a word tells, rounds, and what they count
//! - `last_position`, `held`, `slide`, `at_positions`: the positions of a window, the groups that it holds there, and what its rounds count
//! - `encode`, `encode_batch`, `check_words`, `decode`, `decode_window`, `show`, `loopback`: the calls
//! - `Tally`, `decode_tallied`, `greatest_common`, `report`: the tally and its report
//! - `Generator`, `load_fill`, `load_errors`, `load_run`: the test load
//! - `read_kit`, `read_blocks`, `read_frame`: the texts and the place of rules 11 and 12
//! - `kit_text`, `kit_text_length`, `write_kit`: kit text, its length, and the writer
//! - `block_line` .. `count_lines`, `frame_prints`, `mend_prints`, `makekit_prints`: what is printed
//! - `all_sizes`: every length that a caller from C is told
//!
//! A frame is kept as one vector: the information, then the redundancy. A sent bit is its place in it.

use std::collections::HashMap;
use std::ops::RangeInclusive;

/// "A refusal returns a number and a place."
pub type Refusal = (u64, u64);
pub type Answer<T> = Result<T, Refusal>;

// ---------------------------------------------------------------- Design and BCH words

/// "A design is m (4 to 10), t (1 to 3) and M (1 to 500)"
#[derive(Clone, Copy, PartialEq, Debug)]
pub struct Design {
    pub m: u64,
    pub t: u64,
    pub size: u64,
}

impl Design {
    /// M
    pub fn side(&self) -> usize {
        self.size as usize
    }
    /// "r = m × t"
    pub fn r(&self) -> usize {
        (self.m * self.t) as usize
    }
    /// "n = 2M + 2r"
    pub fn n(&self) -> usize {
        2 * self.side() + 2 * self.r()
    }
    /// "k = 2M + r"
    pub fn k(&self) -> usize {
        2 * self.side() + self.r()
    }
    /// M × r, the entries of a list and the rows of the inverse
    pub fn order(&self) -> usize {
        self.side() * self.r()
    }
    /// "rows of (M × r)/8 bytes rounded up"
    pub fn row_bytes(&self) -> usize {
        (self.order() + 7) / 8
    }
    /// working bytes of kit checker and encoder
    pub fn kit_work(&self) -> usize {
        self.order() * self.row_bytes()
    }
    /// working bytes of the maker
    pub fn make_work(&self) -> usize {
        (2 * self.order() + 512) * self.row_bytes()
    }
    /// working bytes of the word checker
    pub fn word_work(&self) -> usize {
        self.order()
    }
    /// what decoder and loopback want beside the others: a number of four bytes for each of the 2 M words of each group, and a mark for each bit, eight in a byte
    pub fn frame_work(&self, blocks: usize) -> usize {
        4 * 2 * self.side() * groups(blocks) + (info_len(self, blocks) + red_len(self, blocks) + 7) / 8
    }
    /// working bytes of the decoder
    pub fn decoder_work(&self, blocks: usize) -> usize {
        self.word_work() + self.frame_work(blocks)
    }
    /// working bytes of the loopback
    pub fn loopback_work(&self, blocks: usize) -> usize {
        self.kit_work() + self.frame_work(blocks)
    }
}

/// Rules 1, 2 and 3.
pub fn design(m: u64, t: u64, size: u64) -> Answer<Design> {
    if m < 4 || m > 10 {
        return Err((1, 1));
    }
    if t < 1 || t > 3 {
        return Err((1, 2));
    }
    if size < 1 || size > 500 {
        return Err((1, 3));
    }
    let d = Design { m, t, size };
    if d.n() > (1 << m) - 1 {
        return Err((2, d.n() as u64));
    }
    if d.order() > 4096 {
        return Err((3, d.order() as u64));
    }
    Ok(d)
}

/// "Field polynomials in hexadecimal, bit i for x^i, m = 4 to 10: 13, 25, 43, 89, 11D, 211, 409."
pub fn field_polynomial(m: u64) -> u64 {
    [0x13, 0x25, 0x43, 0x89, 0x11D, 0x211, 0x409][m as usize - 4]
}

/// "the first entry is 1, and each entry is the one before times x in its field"
pub fn powers(m: u64) -> Vec<u64> {
    let mut table = vec![1];
    while table.len() < (1 << m) - 1 {
        let doubled = table[table.len() - 1] << 1;
        table.push(if doubled >> m == 1 { doubled ^ field_polynomial(m) } else { doubled });
    }
    table
}

/// The minimal polynomial of power j of the root: the first polynomial, counted as numbers from x
/// upward, that is zero there. (A smaller degree is a smaller number.)
pub fn minimal(m: u64, j: u64) -> u64 {
    let table = powers(m);
    let value = |q: u64| -> u64 {
        (0..64u64)
            .filter(|i| q >> i & 1 == 1)
            .map(|i| table[(i * j) as usize % table.len()])
            .fold(0, |a, b| a ^ b)
    };
    (2..).find(|&q| value(q) == 0).unwrap()
}

/// The product of two polynomials over bits.
pub fn product(a: u64, b: u64) -> u64 {
    (0..32).filter(|i| b >> i & 1 == 1).fold(0, |sum, i| sum ^ a << i)
}

/// "The generator is the product of the minimal polynomials of the odd powers 1, 3, .., 2t-1 of the root."
pub fn generator(m: u64, t: u64) -> u64 {
    (0..t).fold(1, |g, i| product(g, minimal(m, 2 * i + 1)))
}

/// The remainder of a word by the generator g; the word's last bit carries x^0.
pub fn remainder(bits: impl Iterator<Item = u8>, g: u64) -> u64 {
    let degree = 63 - g.leading_zeros();
    let mut rest = 0;
    for bit in bits {
        rest = rest << 1 | bit as u64;
        if rest >> degree & 1 == 1 {
            rest ^= g;
        }
    }
    rest
}

/// The remainder of x^e by the generator g.
pub fn power_remainder(e: usize, g: u64) -> u64 {
    remainder((0..=e).map(|i| (i == 0) as u8), g)
}

/// "the last r [bits are] the remainder of information × x^r by the generator", first bit highest.
pub fn check_bits(information: impl Iterator<Item = u8>, r: usize, g: u64) -> Vec<u8> {
    let rest = remainder(information.chain((0..r).map(|_| 0)), g);
    (0..r).map(|a| (rest >> (r - 1 - a) & 1) as u8).collect()
}

// ---------------------------------------------------------------- Frame

/// A design, a number of blocks and two lists that are permutations.
pub struct Shape {
    pub d: Design,
    pub blocks: usize,
    pub own: Vec<usize>,
    pub parity: Vec<usize>,
    /// the generator
    pub g: u64,
}

/// A word: for each of its n positions the sent bit that stands there, `None` in an unsent block.
pub type Word = Vec<Option<usize>>;

/// "G = L / 2 rounded up"
pub fn groups(blocks: usize) -> usize {
    (blocks + 1) / 2
}

/// Bytes of the information: L blocks of M × M.
pub fn info_len(d: &Design, blocks: usize) -> usize {
    blocks * d.side() * d.side()
}

/// Bytes of the redundancy: "Group i is Y (r × M), then P (r × M)."
pub fn red_len(d: &Design, blocks: usize) -> usize {
    groups(blocks) * 2 * d.order()
}

impl Shape {
    pub fn new(d: Design, blocks: usize, own: Vec<usize>, parity: Vec<usize>) -> Shape {
        Shape { d, blocks, own, parity, g: generator(d.m, d.t) }
    }
    /// Row a, column b of B(block). "B0 is all zero and not sent. For odd L the block after the last
    /// is all zero and not sent."
    fn block_bit(&self, block: usize, a: usize, b: usize) -> Option<usize> {
        let side = self.d.side();
        if block == 0 || block > self.blocks {
            return None;
        }
        Some((block - 1) * side * side + a * side + b)
    }
    /// Row a, column b of Y of group i.
    fn y_bit(&self, i: usize, a: usize, b: usize) -> usize {
        info_len(&self.d, self.blocks) + (i - 1) * 2 * self.d.order() + a * self.d.side() + b
    }
    /// Row a, column b of P of group i.
    fn p_bit(&self, i: usize, a: usize, b: usize) -> usize {
        self.y_bit(i, a, b) + self.d.order()
    }
    /// Row a, column b of X: "Place of row a, column b in an M × r matrix: b × M + a. A list sends the
    /// bit at place p to place list[p]." Y is the transpose of what the self list makes of X.
    fn x_bit(&self, i: usize, a: usize, b: usize) -> usize {
        let to = self.own[b * self.d.side() + a];
        let (to_row, to_column) = (to % self.d.side(), to / self.d.side());
        self.y_bit(i, to_column, to_row)
    }
    /// Row a, column b of Q, with the parity list and P in the same way.
    fn q_bit(&self, i: usize, a: usize, b: usize) -> usize {
        let to = self.parity[b * self.d.side() + a];
        let (to_row, to_column) = (to % self.d.side(), to / self.d.side());
        self.p_bit(i, to_column, to_row)
    }
    /// "Row word a of group i: row a of B(2i-2), of B(2i-1), of X, of Q."
    pub fn row_word(&self, i: usize, a: usize) -> Word {
        let (side, r) = (self.d.side(), self.d.r());
        let mut word = Word::new();
        word.extend((0..side).map(|b| self.block_bit(2 * i - 2, a, b)));
        word.extend((0..side).map(|b| self.block_bit(2 * i - 1, a, b)));
        word.extend((0..r).map(|b| Some(self.x_bit(i, a, b))));
        word.extend((0..r).map(|b| Some(self.q_bit(i, a, b))));
        word
    }
    /// "Column word a: column a of B(2i-1), of B(2i), of Y, of P."
    pub fn column_word(&self, i: usize, a: usize) -> Word {
        let (side, r) = (self.d.side(), self.d.r());
        let mut word = Word::new();
        word.extend((0..side).map(|b| self.block_bit(2 * i - 1, b, a)));
        word.extend((0..side).map(|b| self.block_bit(2 * i, b, a)));
        word.extend((0..r).map(|b| Some(self.y_bit(i, b, a))));
        word.extend((0..r).map(|b| Some(self.p_bit(i, b, a))));
        word
    }
    /// The words of some groups in order, "in each the row words 0 to M-1, then the column words".
    pub fn words_of(&self, groups: RangeInclusive<usize>) -> Vec<Word> {
        let side = self.d.side();
        groups
            .flat_map(|i| {
                let rows = (0..side).map(move |a| self.row_word(i, a));
                rows.chain((0..side).map(move |a| self.column_word(i, a)))
            })
            .collect()
    }
    /// All words: "groups 1 to G".
    pub fn words(&self) -> Vec<Word> {
        self.words_of(1..=groups(self.blocks))
    }
}

/// The bits of a word in a frame, unsent ones 0.
fn read<'a>(word: &'a [Option<usize>], frame: &'a [u8]) -> impl Iterator<Item = u8> + 'a {
    word.iter().map(|bit| bit.map_or(0, |place| frame[place]))
}

/// The check of a word, its remainder: "let the check read each of its sent bits once and no other bit". `load` reads a bit of the frame.
pub fn check_word(shape: &Shape, word: &[Option<usize>], mut load: impl FnMut(usize) -> u8) -> u64 {
    remainder(word.iter().map(|bit| bit.map_or(0, |place| load(place))), shape.g)
}

/// "The word checker counts the words outside the code": those that the generator doesn't divide.
pub fn words_outside(shape: &Shape, frame: &[u8]) -> u64 {
    outside(shape.g, &shape.words(), frame)
}

/// Those of any words.
pub fn outside(g: u64, words: &[Word], frame: &[u8]) -> u64 {
    words.iter().filter(|word| remainder(read(word, frame), g) != 0).count() as u64
}

// ---------------------------------------------------------------- System and kit

/// "Entry b × r + a of A y + c is the bit at row a, column b of P that the column words give, plus the
/// bit that the parity list brings there from the Q that the row words give." The blocks and Y of
/// group i are taken from the frame; what stands in its P plays no part.
pub fn sums(shape: &Shape, frame: &[u8], i: usize) -> Vec<u8> {
    let d = &shape.d;
    let (side, r, k, g) = (d.side(), d.r(), d.k(), shape.g);
    let mut entries = vec![0; d.order()];
    let p_start = shape.p_bit(i, 0, 0);
    for b in 0..side {
        let word = shape.column_word(i, b);
        for (a, bit) in check_bits(read(&word[..k], frame), r, g).into_iter().enumerate() {
            entries[b * r + a] ^= bit;
        }
    }
    for a in 0..side {
        let word = shape.row_word(i, a);
        for (b, bit) in check_bits(read(&word[..k], frame), r, g).into_iter().enumerate() {
            let in_p = word[k + b].unwrap() - p_start;
            let (p_row, p_column) = (in_p / side, in_p % side);
            entries[p_column * r + p_row] ^= bit;
        }
    }
    entries
}

/// A square matrix of bits, rows packed into words of 64, column j at bit j mod 64 of word j / 64.
#[derive(Clone, PartialEq)]
pub struct Matrix {
    pub order: usize,
    pub rows: Vec<Vec<u64>>,
}

impl Matrix {
    pub fn zero(order: usize) -> Matrix {
        Matrix { order, rows: vec![vec![0; (order + 63) / 64]; order] }
    }
    pub fn identity(order: usize) -> Matrix {
        let mut one = Matrix::zero(order);
        (0..order).for_each(|i| one.turn(i, i));
        one
    }
    pub fn bit(&self, row: usize, column: usize) -> bool {
        self.rows[row][column / 64] >> (column % 64) & 1 == 1
    }
    pub fn turn(&mut self, row: usize, column: usize) {
        self.rows[row][column / 64] ^= 1 << (column % 64);
    }
    /// From the bytes of an inverse: "column j is bit j mod 8 of byte j/8 rounded down".
    pub fn from_bytes(order: usize, bytes: &[u8]) -> Matrix {
        let mut matrix = Matrix::zero(order);
        for (row, line) in bytes.chunks((order + 7) / 8).enumerate() {
            for column in 0..order {
                if line[column / 8] >> (column % 8) & 1 == 1 {
                    matrix.turn(row, column);
                }
            }
        }
        matrix
    }
    pub fn to_bytes(&self) -> Vec<u8> {
        let width = (self.order + 7) / 8;
        let mut bytes = vec![0; self.order * width];
        for row in 0..self.order {
            for column in (0..self.order).filter(|&column| self.bit(row, column)) {
                bytes[row * width + column / 8] |= 1 << (column % 8);
            }
        }
        bytes
    }
    /// "An entry of a product is 1 exactly when a row and a column share an odd number of ones": row i
    /// of a product is the sum of those rows of the right matrix at which row i of the left has ones.
    pub fn product_row(&self, right: &Matrix, i: usize) -> Vec<u64> {
        let mut sum = vec![0; self.rows[i].len()];
        for j in (0..self.order).filter(|&j| self.bit(i, j)) {
            sum.iter_mut().zip(&right.rows[j]).for_each(|(to, from)| *to ^= from);
        }
        sum
    }
    /// The first entry, row by row, at which a product is not the identity: row × order + column.
    pub fn first_wrong(&self, right: &Matrix) -> Option<u64> {
        for i in 0..self.order {
            let mut row = self.product_row(right, i);
            row[i / 64] ^= 1 << (i % 64);
            if let Some(at) = row.iter().position(|&word| word != 0) {
                let column = at * 64 + row[at].trailing_zeros() as usize;
                return Some((i * self.order + column) as u64);
            }
        }
        None
    }
    /// This matrix times a column.
    pub fn times(&self, column: &[u8]) -> Vec<u8> {
        let ones: Vec<usize> = (0..self.order).filter(|&j| column[j] == 1).collect();
        (0..self.order).map(|i| (ones.iter().filter(|&&j| self.bit(i, j)).count() % 2) as u8).collect()
    }
}

/// A: column j is what a Y gives that has its only one at entry j of y ("Stack Y column by column to y"),
/// the blocks being zero. A word without ones gives zeros, so only the row word and the column word
/// in which this bit stands are looked at.
pub fn system(shape: &Shape) -> Matrix {
    let d = &shape.d;
    let (side, r, n, k, g) = (d.side(), d.r(), d.n(), d.k(), shape.g);
    let y_start = shape.y_bit(1, 0, 0);
    let p_start = shape.p_bit(1, 0, 0);
    let words: Vec<Word> =
        (0..side).map(|a| shape.row_word(1, a)).chain((0..side).map(|a| shape.column_word(1, a))).collect();
    // the words, and positions there, at which each bit of Y stands
    let mut stands = vec![Vec::new(); d.order()];
    for (w, word) in words.iter().enumerate() {
        for position in 2 * side..k {
            stands[word[position].unwrap() - y_start].push((w, position));
        }
    }
    let mut a_matrix = Matrix::zero(d.order());
    for (q, places) in stands.iter().enumerate() {
        let (y_row, y_column) = (q / side, q % side);
        for &(w, position) in places {
            let rest = power_remainder(n - 1 - position, g);
            for b in (0..r).filter(|b| rest >> (r - 1 - b) & 1 == 1) {
                let in_p = words[w][k + b].unwrap() - p_start;
                let (p_row, p_column) = (in_p / side, in_p % side);
                a_matrix.turn(p_column * r + p_row, y_column * r + y_row);
            }
        }
    }
    a_matrix
}

/// Rule 6: the first slice of a wrong length, of (place, length, right length).
fn lengths(slices: &[(u64, usize, usize)]) -> Answer<()> {
    match slices.iter().find(|(_, length, right)| length != right) {
        Some(&(place, _, _)) => Err((6, place)),
        None => Ok(()),
    }
}

/// "A list is two bytes an entry, low byte first."
pub fn entries(list: &[u8]) -> Vec<usize> {
    list.chunks(2).map(|two| two[0] as usize + 256 * two[1] as usize).collect()
}

/// Rule 7: "first entry too large or seen earlier in its list", "for parity plus M × r".
fn permutations(d: &Design, own: &[u8], parity: &[u8]) -> Answer<(Vec<usize>, Vec<usize>)> {
    let lists = (entries(own), entries(parity));
    for (list, plus) in [(&lists.0, 0), (&lists.1, d.order())] {
        let mut seen = vec![false; d.order()];
        for (at, &entry) in list.iter().enumerate() {
            if entry >= d.order() || seen[entry] {
                return Err((7, (at + plus) as u64));
            }
            seen[entry] = true;
        }
    }
    Ok(lists)
}

/// Rule 10: "first byte above 1", "byte; for redundancy plus the information length".
fn bits(bytes: impl Iterator<Item = u8>) -> Answer<()> {
    match bytes.into_iter().position(|byte| byte > 1) {
        Some(at) => Err((10, at as u64)),
        None => Ok(()),
    }
}

/// Rule 8: a row of W with a spare bit that is set.
fn spare_bits(d: &Design, inverse: &[u8]) -> Answer<()> {
    let (order, width) = (d.order(), d.row_bytes());
    for (row, line) in inverse.chunks(width).enumerate() {
        if (order..8 * width).any(|column| line[column / 8] >> (column % 8) & 1 == 1) {
            return Err((8, row as u64));
        }
    }
    Ok(())
}

/// Rule 9, for lists that are permutations: "row × M × r + column", the first wrong entry of A W; W A is the
/// identity exactly when A W is, and is not made. The answer is W.
fn inverse_of(shape: &Shape, inverse: &[u8]) -> Answer<Matrix> {
    let w_matrix = Matrix::from_bytes(shape.d.order(), inverse);
    match system(shape).first_wrong(&w_matrix) {
        Some(place) => Err((9, place)),
        None => Ok(w_matrix),
    }
}

/// A kit: "a design, both lists and a matrix W", as bytes.
#[derive(Clone)]
pub struct Kit {
    pub m: u64,
    pub t: u64,
    pub size: u64,
    pub own: Vec<u8>,
    pub parity: Vec<u8>,
    pub inverse: Vec<u8>,
}

/// The kit checker: rules 1 to 3 and 6 to 9.
pub fn check_kit(kit: &Kit, work: usize) -> Answer<()> {
    let d = design(kit.m, kit.t, kit.size)?;
    lengths(&[
        (1, kit.own.len(), 2 * d.order()),
        (2, kit.parity.len(), 2 * d.order()),
        (3, kit.inverse.len(), d.order() * d.row_bytes()),
        (6, work, d.kit_work()),
    ])?;
    let (own, parity) = permutations(&d, &kit.own, &kit.parity)?;
    spare_bits(&d, &kit.inverse)?;
    inverse_of(&Shape::new(d, 1, own, parity), &kit.inverse)?;
    Ok(())
}

/// Rule 14: "the first column of A that is a sum of earlier columns (column 0 if it is zero)", so that a zero
/// column is such a sum anywhere. The sums of the columns so far are kept as a set of columns with
/// different first ones, of which each sum is made in one way only: a column is such a sum exactly when
/// nothing is left of it once, from the front on, each of its ones is taken away by the kept column that
/// starts there.
pub fn first_dependent(a_matrix: &Matrix) -> Option<usize> {
    let order = a_matrix.order;
    let mut columns = Matrix::zero(order);
    for i in 0..order {
        (0..order).filter(|&j| a_matrix.bit(i, j)).for_each(|j| columns.turn(j, i));
    }
    let mut kept: Vec<Option<Vec<u64>>> = vec![None; order];
    for (j, mut column) in columns.rows.into_iter().enumerate() {
        loop {
            let Some(at) = column.iter().position(|&word| word != 0) else { return Some(j) };
            let first = at * 64 + column[at].trailing_zeros() as usize;
            let Some(other) = &kept[first] else {
                kept[first] = Some(column);
                break;
            };
            column.iter_mut().zip(other).for_each(|(to, from)| *to ^= from);
        }
    }
    None
}

/// W by elimination on [A | 1], row by row: `None` where a column has no row left for it.
pub fn inverse(a_matrix: &Matrix) -> Option<Matrix> {
    let order = a_matrix.order;
    let width = (order + 63) / 64;
    let one = Matrix::identity(order);
    let mut rows: Vec<Vec<u64>> = (0..order).map(|i| [&a_matrix.rows[i][..], &one.rows[i][..]].concat()).collect();
    for column in 0..order {
        let has = |row: &Vec<u64>| row[column / 64] >> (column % 64) & 1 == 1;
        let found = (column..order).find(|&i| has(&rows[i]))?;
        rows.swap(column, found);
        let pivot = rows[column].clone();
        for (i, row) in rows.iter_mut().enumerate() {
            if i != column && has(row) {
                row.iter_mut().zip(&pivot).skip(column / 64).for_each(|(to, from)| *to ^= from);
            }
        }
    }
    Some(Matrix { order, rows: rows.into_iter().map(|row| row[width..].to_vec()).collect() })
}

/// The maker: rules 1 to 3, 6, 7 and 14. The kit's inverse is the buffer for W, which is not judged. The answer is W.
pub fn make_inverse(kit: &Kit, work: usize) -> Answer<Vec<u8>> {
    let d = design(kit.m, kit.t, kit.size)?;
    lengths(&[
        (1, kit.own.len(), 2 * d.order()),
        (2, kit.parity.len(), 2 * d.order()),
        (3, kit.inverse.len(), d.order() * d.row_bytes()),
        (6, work, d.make_work()),
    ])?;
    let (own, parity) = permutations(&d, &kit.own, &kit.parity)?;
    let a_matrix = system(&Shape::new(d, 1, own, parity));
    match first_dependent(&a_matrix) {
        Some(column) => Err((14, column as u64)),
        None => Ok(inverse(&a_matrix).expect("an inverse of a matrix without dependent columns").to_bytes()),
    }
}

/// A list that turns column j of an M × r matrix down by `by` + j rows modulo M. A turn by one row takes the lowest
/// bit of a column to its top and each other one row down; after so many of them the bits are looked for.
pub fn turned(d: &Design, by: usize) -> Vec<usize> {
    let mut list = vec![0; d.order()];
    for j in 0..d.r() {
        let mut column: Vec<usize> = (0..d.side()).collect();
        for _ in 0..by + j {
            let lowest = column.pop().unwrap();
            column.insert(0, lowest);
        }
        for (row, &bit) in column.iter().enumerate() {
            list[j * d.side() + bit] = j * d.side() + row;
        }
    }
    list
}

/// "Column j of X is turned down by j rows modulo M, column j of Q by r + j": both lists as bytes, for buffers of these
/// lengths. Rules 1 to 3, "15 narrow, after 3, when 2r exceeds M; the place is M", and 6.
pub fn spread_lists(m: u64, t: u64, size: u64, own: usize, parity: usize) -> Answer<(Vec<u8>, Vec<u8>)> {
    let d = design(m, t, size)?;
    if 2 * d.r() > d.side() {
        return Err((15, size));
    }
    lengths(&[(1, own, 2 * d.order()), (2, parity, 2 * d.order())])?;
    Ok((list_to_bytes(&turned(&d, 0)), list_to_bytes(&turned(&d, d.r()))))
}

/// "two bytes an entry, low byte first"
fn list_to_bytes(list: &[usize]) -> Vec<u8> {
    list.iter().flat_map(|entry| [(entry % 256) as u8, (entry / 256) as u8]).collect()
}

/// A mixed list, column word by column word: "π is 0, 1, .., r - 1; for i from r - 1 down to 1, one draw d of 16 steps, first
/// output highest, and entries i and d mod (i + 1) of π change places. Then entry j × M + a .., with (a + by + j) mod M = c,
/// is π(j) × M + c". The row a is looked for.
pub fn mixed(d: &Design, by: usize, generator: &mut Generator) -> Vec<usize> {
    let mut list = vec![usize::MAX; d.order()];
    for c in 0..d.side() {
        let mut rows: Vec<usize> = (0..d.r()).collect();
        for i in (1..d.r()).rev() {
            let drawn = generator.draw() as usize;
            rows.swap(i, drawn % (i + 1));
        }
        for j in 0..d.r() {
            let a = (0..d.side()).find(|a| (a + by + j) % d.side() == c).unwrap();
            list[j * d.side() + a] = rows[j] * d.side() + c;
        }
    }
    list
}

/// Mixed lists of a seed, "one state from the seed through both lists, X before Q": both lists as bytes and the last state,
/// for buffers of these lengths. "Rules 1 to 3, 15, 6."
pub fn mixed_lists(m: u64, t: u64, size: u64, seed: u32, own: usize, parity: usize) -> Answer<(Vec<u8>, Vec<u8>, u32)> {
    spread_lists(m, t, size, own, parity)?;
    let d = design(m, t, size)?;
    let mut generator = Generator(seed);
    let own = list_to_bytes(&mixed(&d, 0, &mut generator));
    let parity = list_to_bytes(&mixed(&d, d.r(), &mut generator));
    Ok((own, parity, generator.0))
}

/// Rule 4 for L.
pub fn block_count(blocks: u64) -> Answer<usize> {
    if blocks < 1 || blocks > 4096 {
        return Err((4, blocks));
    }
    Ok(blocks as usize)
}

/// The encoder: rules 1 to 4, 6 to 8, 10 and then 9. The answer is the redundancy.
pub fn encode(kit: &Kit, blocks: u64, info: &[u8], red: usize, work: usize) -> Answer<Vec<u8>> {
    encode_by(kit, blocks, info, red, work, |d, _| d.kit_work())
}

/// The encoder with another working length.
fn encode_by(
    kit: &Kit, blocks: u64, info: &[u8], red: usize, work: usize, due: impl Fn(&Design, usize) -> usize,
) -> Answer<Vec<u8>> {
    let d = design(kit.m, kit.t, kit.size)?;
    let blocks = block_count(blocks)?;
    lengths(&[
        (1, kit.own.len(), 2 * d.order()),
        (2, kit.parity.len(), 2 * d.order()),
        (3, kit.inverse.len(), d.order() * d.row_bytes()),
        (4, info.len(), info_len(&d, blocks)),
        (5, red, red_len(&d, blocks)),
        (6, work, due(&d, blocks)),
    ])?;
    let (own, parity) = permutations(&d, &kit.own, &kit.parity)?;
    spare_bits(&d, &kit.inverse)?;
    bits(info.iter().copied())?;
    let shape = Shape::new(d, blocks, own, parity);
    let w_matrix = inverse_of(&shape, &kit.inverse)?;
    Ok(redundancy(&shape, &w_matrix, info))
}

/// Several frames of one length: "check the kit a single time for all". Rules 1 to 4, "17 batch, after 4, when the
/// number of frames is 0 or above 256; the place is that number", 6 over "the joined buffers", 7, 8, 10 with a
/// place "over the joined information", and 9. "Either every frame is encoded as it would be alone, or none is
/// touched": the answer is the joined redundancy.
pub fn encode_batch(kit: &Kit, blocks: u64, frames: u64, info: &[u8], red: usize, work: usize) -> Answer<Vec<u8>> {
    let d = design(kit.m, kit.t, kit.size)?;
    let blocks = block_count(blocks)?;
    if frames == 0 || frames > 256 {
        return Err((17, frames));
    }
    lengths(&[
        (1, kit.own.len(), 2 * d.order()),
        (2, kit.parity.len(), 2 * d.order()),
        (3, kit.inverse.len(), d.order() * d.row_bytes()),
        (4, info.len(), frames as usize * info_len(&d, blocks)),
        (5, red, frames as usize * red_len(&d, blocks)),
        (6, work, d.kit_work()),
    ])?;
    let (own, parity) = permutations(&d, &kit.own, &kit.parity)?;
    spare_bits(&d, &kit.inverse)?;
    bits(info.iter().copied())?;
    let shape = Shape::new(d, blocks, own, parity);
    let w_matrix = inverse_of(&shape, &kit.inverse)?;
    Ok(info.chunks(info_len(&d, blocks)).flat_map(|frame| redundancy(&shape, &w_matrix, frame)).collect())
}

/// The redundancy of a frame: in each group y = W c ("c for zero Y"), then P from the column words.
pub fn redundancy(shape: &Shape, w_matrix: &Matrix, info: &[u8]) -> Vec<u8> {
    let d = &shape.d;
    let (side, r, k, g) = (d.side(), d.r(), d.k(), shape.g);
    let mut frame = info.to_vec();
    frame.resize(info.len() + red_len(d, shape.blocks), 0);
    for i in 1..=groups(shape.blocks) {
        let y = w_matrix.times(&sums(shape, &frame, i));
        for b in 0..side {
            for a in 0..r {
                frame[shape.y_bit(i, a, b)] = y[b * r + a];
            }
        }
        for b in 0..side {
            let word = shape.column_word(i, b);
            for (a, bit) in check_bits(read(&word[..k], &frame), r, g).into_iter().enumerate() {
                frame[shape.p_bit(i, a, b)] = bit;
            }
        }
    }
    frame.split_off(info.len())
}

// ---------------------------------------------------------------- Decoder

/// What the word checker and the decoder are lent.
#[derive(Clone)]
pub struct Received {
    pub m: u64,
    pub t: u64,
    pub size: u64,
    pub blocks: u64,
    pub own: Vec<u8>,
    pub parity: Vec<u8>,
    pub info: Vec<u8>,
    pub red: Vec<u8>,
}

/// Rules 1 to 4, 5 (for a call with rounds), 18 (for a call with a window), 6, 7 and 10. `others` are the slices of rule 6 after the
/// redundancy: place, length and right length. The answer is the shape and the frame.
fn received(
    lent: &Received, rounds: u64, window: Option<u64>, others: impl Fn(&Design, usize) -> Vec<(u64, usize, usize)>,
) -> Answer<(Shape, Vec<u8>)> {
    let d = design(lent.m, lent.t, lent.size)?;
    let blocks = block_count(lent.blocks)?;
    if rounds > 64 {
        return Err((5, rounds));
    }
    // "18 window, after 5, when V is 0 or above 64; the place is V"
    if let Some(wrong @ (0 | 65..)) = window {
        return Err((18, wrong));
    }
    lengths(&[
        (1, lent.own.len(), 2 * d.order()),
        (2, lent.parity.len(), 2 * d.order()),
        (4, lent.info.len(), info_len(&d, blocks)),
        (5, lent.red.len(), red_len(&d, blocks)),
    ])?;
    lengths(&others(&d, blocks))?;
    let (own, parity) = permutations(&d, &lent.own, &lent.parity)?;
    let frame = [&lent.info[..], &lent.red[..]].concat();
    bits(frame.iter().copied())?;
    Ok((Shape::new(d, blocks, own, parity), frame))
}

/// The word checker: rules 1 to 4, 6, 7 and 10. The answer is the number of words outside the code.
pub fn check_words(lent: &Received, work: usize) -> Answer<u64> {
    let (shape, frame) = received(lent, 0, None, |d, _| vec![(6, work, d.word_work())])?;
    Ok(words_outside(&shape, &frame))
}

/// All patterns of at most t changes of n positions, found by their remainders: those of one and two
/// changes are kept, and a third one is tried at each position.
pub struct Patterns {
    t: u64,
    single: Vec<u64>,
    kept: HashMap<u64, (usize, usize)>,
}

impl Patterns {
    pub fn new(d: &Design, g: u64) -> Patterns {
        Patterns::of_length(d.n(), d.t, g)
    }
    pub fn of_length(n: usize, t: u64, g: u64) -> Patterns {
        // "Position j of an n-bit word carries x^(n-1-j)."
        let single: Vec<u64> = (0..n).map(|j| power_remainder(n - 1 - j, g)).collect();
        let mut kept = HashMap::new();
        for i in 0..n {
            kept.insert(single[i], (i, i)); // one change
            for j in 0..if t >= 2 { i } else { 0 } {
                kept.insert(single[i] ^ single[j], (i, j)); // two changes
            }
        }
        Patterns { t, single, kept }
    }
    fn at_most_two(&self, rest: u64) -> Option<Vec<usize>> {
        self.kept.get(&rest).map(|&(i, j)| if i == j { vec![i] } else { vec![i, j] })
    }
    /// The changes, at most t, that make a word with this remainder a codeword: there is at most one
    /// such pattern, since two codewords differ in at least 2t + 1 positions.
    pub fn changes(&self, rest: u64) -> Option<Vec<usize>> {
        if rest == 0 {
            return Some(vec![]);
        }
        if let Some(found) = self.at_most_two(rest) {
            return Some(found);
        }
        if self.t < 3 {
            return None;
        }
        (0..self.single.len()).find_map(|i| {
            let mut found = self.at_most_two(rest ^ self.single[i])?;
            found.push(i);
            Some(found)
        })
    }
}

/// "Mending a word now tells one of three: clean (already a codeword), mended with the number of bits, or stuck."
#[derive(Clone, Copy, PartialEq, Debug)]
pub enum Verdict {
    Clean,
    Mended(u64),
    Stuck,
}

impl Verdict {
    fn bits(&self) -> u64 {
        match self {
            Verdict::Mended(bits) => *bits,
            _ => 0,
        }
    }
}

/// What a decode tells: "rounds made (the idle last one counted)", "the number of sent bits in which the mended frame differs
/// from the copy", "words outside the code at the end", and "the number of stuck verdicts in the last round made".
#[derive(Clone, Copy, PartialEq, Debug)]
pub struct Counts {
    pub rounds: u64,
    pub turned: u64,
    pub outside: u64,
    pub stuck: u64,
}

/// What the rounds did beside that, which no call tells: turns, "also a turn back", and rounds that turned bits, left the frame
/// as it was and were not the last.
#[derive(Clone, Copy, PartialEq, Debug, Default)]
pub struct Turns {
    pub turns: u64,
    pub undone_rounds: u64,
}

/// The number of bits in which two frames differ.
pub fn differing(frame: &[u8], other: &[u8]) -> u64 {
    frame.iter().zip(other).filter(|(a, b)| a != b).count() as u64
}

/// The decoder: rules 1 to 7 and 10. The answer is the mended information and redundancy, and counts.
pub fn decode(lent: &Received, rounds: u64, work: usize) -> Answer<(Vec<u8>, Vec<u8>, Counts)> {
    let (shape, mut frame) = received(lent, rounds, None, |d, blocks| vec![(6, work, d.decoder_work(blocks))])?;
    let (counts, _) = mend(&shape, &mut frame, rounds);
    let red = frame.split_off(lent.info.len());
    Ok((frame, red, counts))
}

/// What the rounds of an accepted decode do beside what it tells.
pub fn turns(lent: &Received, rounds: u64, work: usize) -> Answer<Turns> {
    let (shape, mut frame) = received(lent, rounds, None, |d, blocks| vec![(6, work, d.decoder_work(blocks))])?;
    Ok(mend(&shape, &mut frame, rounds).1)
}

/// "Mending a word: if a codeword lies within t changes and touches no bit of an unsent block, the word becomes it [..];
/// otherwise it stays." A redundancy bit is kept once, so a turn reaches both of its words.
fn mend_word(g: u64, patterns: &Patterns, word: &Word, frame: &mut [u8]) -> Verdict {
    let rest = remainder(read(word, frame), g);
    if rest == 0 {
        return Verdict::Clean;
    }
    let Some(changes) = patterns.changes(rest) else { return Verdict::Stuck };
    let Some(sent) = changes.iter().map(|&j| word[j]).collect::<Option<Vec<usize>>>() else { return Verdict::Stuck };
    for &place in &sent {
        frame[place] = 1 - frame[place];
    }
    Verdict::Mended(sent.len() as u64)
}

/// The number of rounds that a number stands for: "A rounds number of 0 now stands for 12".
pub fn allowed(rounds: u64) -> u64 {
    if rounds == 0 { 12 } else { rounds }
}

/// Rounds over these words: how many are made, and the stuck verdicts of the last one. "Rounds end after one that turns
/// no bit, or when all are made": also after document 02, by turns and not by the bits in which the frame differs.
pub fn make_rounds(g: u64, patterns: &Patterns, words: &[Word], frame: &mut [u8], rounds: u64) -> (u64, u64, Turns) {
    let (mut made, mut all) = (0, Turns::default());
    loop {
        let before = frame.to_vec();
        let verdicts: Vec<Verdict> = words.iter().map(|word| mend_word(g, patterns, word, frame)).collect();
        let turns: u64 = verdicts.iter().map(Verdict::bits).sum();
        made += 1;
        all.turns += turns;
        all.undone_rounds += (turns > 0 && before == frame && made < allowed(rounds)) as u64;
        if turns == 0 || made == allowed(rounds) {
            let stuck = verdicts.iter().filter(|&&verdict| verdict == Verdict::Stuck).count() as u64;
            return (made, stuck, all);
        }
    }
}

/// "A round takes groups 1 to G, in each the row words 0 to M-1, then the column words."
fn mend(shape: &Shape, frame: &mut [u8], rounds: u64) -> (Counts, Turns) {
    let patterns = Patterns::new(&shape.d, shape.g);
    let copy = frame.to_vec();
    let (rounds, stuck, all) = make_rounds(shape.g, &patterns, &shape.words(), frame, rounds);
    (Counts { rounds, turned: differing(&copy, frame), outside: words_outside(shape, frame), stuck }, all)
}

// ---------------------------------------------------------------- The sliding window

/// "With a window of V groups, positions run from group 1 to the larger of 1 and G - V + 1": the last one.
pub fn last_position(blocks: usize, window: u64) -> u64 {
    (groups(blocks) as i64 - window as i64 + 1).max(1) as u64
}

/// The groups that a window holds at a position: V of them from there on, as far as there are any.
pub fn held(blocks: usize, window: u64, position: u64) -> RangeInclusive<usize> {
    position as usize..=groups(blocks).min((position + window - 1) as usize)
}

/// What an accepted call with a window does at each position: the rounds made there and the bits turned in them.
pub type Positions = Vec<(u64, u64)>;

/// The decoder with a window: the decoder's rules, and 18. "Each position makes rounds over its groups, up to the number allowed,
/// ending early after one with no turn. [..] Rounds are summed over positions [..]. The stuck verdicts are those of the last round at
/// the last position." The other two counts are of the whole frame: the bits in which it differs from the copy, and its words outside
/// at the end.
pub fn decode_window(lent: &Received, rounds: u64, window: u64, work: usize) -> Answer<(Vec<u8>, Vec<u8>, Counts)> {
    let (shape, mut frame) = received(lent, rounds, Some(window), |d, blocks| vec![(6, work, d.decoder_work(blocks))])?;
    let (counts, _) = slide(&shape, &mut frame, rounds, window);
    let red = frame.split_off(lent.info.len());
    Ok((frame, red, counts))
}

/// What an accepted call does at each position.
pub fn at_positions(lent: &Received, rounds: u64, window: u64, work: usize) -> Answer<Positions> {
    let (shape, mut frame) = received(lent, rounds, Some(window), |d, blocks| vec![(6, work, d.decoder_work(blocks))])?;
    Ok(slide(&shape, &mut frame, rounds, window).1)
}

fn slide(shape: &Shape, frame: &mut [u8], rounds: u64, window: u64) -> (Counts, Positions) {
    let patterns = Patterns::new(&shape.d, shape.g);
    let copy = frame.to_vec();
    let (mut all, mut last_stuck) = (vec![], 0);
    for position in 1..=last_position(shape.blocks, window) {
        let words = shape.words_of(held(shape.blocks, window, position));
        let (made, stuck, turns) = make_rounds(shape.g, &patterns, &words, frame, rounds);
        all.push((made, turns.turns));
        last_stuck = stuck;
    }
    let rounds = all.iter().map(|(made, _)| made).sum();
    (Counts { rounds, turned: differing(&copy, frame), outside: words_outside(shape, frame), stuck: last_stuck }, all)
}

// ---------------------------------------------------------------- Loopback, showing

/// The loopback: encode, turn the bits that the patterns name, decode in place. Its rules are 1 to 4, the
/// decoder's 5, and then the encoder's 6, 7, 8, 10 and 9; a refused call leaves everything.
pub fn loopback(
    kit: &Kit, blocks: u64, rounds: u64, errors: (&[u8], &[u8]), info: &[u8], red: usize, work: usize,
) -> Answer<(Vec<u8>, Vec<u8>, Counts)> {
    let d = design(kit.m, kit.t, kit.size)?;
    let count = block_count(blocks)?;
    if rounds > 64 {
        return Err((5, rounds));
    }
    let red = encode_by(kit, blocks, info, red, work, |d, blocks| d.loopback_work(blocks))?;
    let turn = |buffer: &[u8], pattern: &[u8]| -> Vec<u8> {
        let turns = pattern.iter().map(|&byte| (byte != 0) as u8).chain(std::iter::repeat(0));
        buffer.iter().zip(turns).map(|(bit, turn)| bit ^ turn).collect()
    };
    let copy = Received {
        m: kit.m,
        t: kit.t,
        size: kit.size,
        blocks,
        own: kit.own.clone(),
        parity: kit.parity.clone(),
        info: turn(info, errors.0),
        red: turn(&red, errors.1),
    };
    decode(&copy, rounds, d.decoder_work(count))
}

/// "A block or a group is shown as the stretch of whichever buffer holds it": rules 1 to 4 and 6.
/// Kind 0 is a block, any other a group.
pub fn show<'a>(design3: (u64, u64, u64), blocks: u64, kind: u64, number: u64, info: &'a [u8], red: &'a [u8]) -> Answer<&'a [u8]> {
    let d = design(design3.0, design3.1, design3.2)?;
    let blocks = block_count(blocks)?;
    let last = if kind == 0 { blocks } else { groups(blocks) };
    if number < 1 || number > last as u64 {
        return Err((4, number));
    }
    lengths(&[(4, info.len(), info_len(&d, blocks)), (5, red.len(), red_len(&d, blocks))])?;
    let (buffer, stretch) = if kind == 0 { (info, d.side() * d.side()) } else { (red, 2 * d.order()) };
    Ok(&buffer[(number as usize - 1) * stretch..number as usize * stretch])
}

// ---------------------------------------------------------------- The tally

/// "frames, sent bits, bits turned, rounds, words outside, stuck words"
pub type Tally = [u64; 6];

/// Place 9 of rule 6, the last slice: a tally of other than six totals.
fn totals(tally: &[u64]) -> Answer<Tally> {
    tally.try_into().map_err(|_| (6, 9))
}

/// "16 full, after 10, when on entry some total is above 2^62; the place is the first such total's position in the order above,
/// from 1"
fn room(tally: &Tally) -> Answer<()> {
    match tally.iter().position(|&total| total > 1 << 62) {
        Some(at) => Err((16, at as u64 + 1)),
        None => Ok(()),
    }
}

/// "A tally is lent to each decode and brought up to date there": the decoder's rules, with the tally as rule 6's last slice, and 16. The
/// answer is the decoder's, and the tally afterwards; "a refused decode changes no total".
pub fn decode_tallied(
    lent: &Received, rounds: u64, work: usize, tally: &[u64],
) -> Answer<((Vec<u8>, Vec<u8>, Counts), Tally)> {
    received(lent, rounds, None, |d, blocks| vec![(6, work, d.decoder_work(blocks)), (9, tally.len(), 6)])?;
    let mut tally = totals(tally)?;
    room(&tally)?;
    let decoded = decode(lent, rounds, work)?;
    let bits = lent.info.len() + lent.red.len();
    let counts = decoded.2;
    let added = [1, bits as u64, counts.turned, counts.rounds, counts.outside, counts.stuck];
    tally.iter_mut().zip(added).for_each(|(total, more)| *total += more);
    Ok((decoded, tally))
}

/// The greatest common divisor of two numbers, one of them not 0: halving what is even, and taking the smaller odd number from the greater.
pub fn greatest_common(mut a: u64, mut b: u64) -> u64 {
    let twos = (a | b).trailing_zeros();
    while a > 0 && b > 0 {
        a >>= a.trailing_zeros();
        b >>= b.trailing_zeros();
        (a, b) = if a > b { (a - b, b) } else { (a, b - a) };
    }
    let odd = (a | b) >> (a | b).trailing_zeros();
    odd << twos
}

/// "a report: each total, and the share of turned bits as two whole numbers with no common factor (0 and 1 for no sent bits)"
pub fn report(tally: &[u64]) -> Answer<(Tally, u64, u64)> {
    let tally = totals(tally)?;
    let [_, bits, turned, ..] = tally;
    if bits == 0 {
        return Ok((tally, 0, 1));
    }
    let factor = greatest_common(turned, bits);
    Ok((tally, turned / factor, bits / factor))
}

// ---------------------------------------------------------------- The test load

/// "a 32-bit state s"
pub struct Generator(pub u32);

impl Generator {
    /// "s becomes s × 1664525 + 1013904223 modulo 2^32, and the new state's highest bit is the output"
    pub fn step(&mut self) -> u8 {
        self.0 = ((self.0 as u64 * 1664525 + 1013904223) % (1 << 32)) as u32;
        (self.0 >> 31) as u8
    }
    /// "one draw of 16 steps per bit, first output highest"
    pub fn draw(&mut self) -> u64 {
        let outputs: Vec<u64> = (0..16).map(|_| self.step() as u64).collect();
        outputs.iter().enumerate().map(|(i, bit)| bit << (15 - i)).sum()
    }
}

/// "It fills information, a step a bit": rules 1 to 4 and 6. The answer is the information and the last state.
pub fn load_fill(design3: (u64, u64, u64), blocks: u64, seed: u32, info: usize) -> Answer<(Vec<u8>, u32)> {
    let d = design(design3.0, design3.1, design3.2)?;
    let blocks = block_count(blocks)?;
    lengths(&[(4, info, info_len(&d, blocks))])?;
    let mut generator = Generator(seed);
    let bits = (0..info).map(|_| generator.step()).collect();
    Ok((bits, generator.0))
}

/// Rules 1 to 4, 6 and 10, "over the whole frame". The answer is the frame: "information before redundancy".
fn load_frame(design3: (u64, u64, u64), blocks: u64, info: &[u8], red: &[u8]) -> Answer<Vec<u8>> {
    let d = design(design3.0, design3.1, design3.2)?;
    let blocks = block_count(blocks)?;
    lengths(&[(4, info.len(), info_len(&d, blocks)), (5, red.len(), red_len(&d, blocks))])?;
    let frame = [info, red].concat();
    bits(frame.iter().copied())?;
    Ok(frame)
}

/// "the bit turns when the drawn number is below a given limit". The answer is information, redundancy and the last state.
pub fn load_errors(
    design3: (u64, u64, u64), blocks: u64, seed: u32, limit: u64, info: &[u8], red: &[u8],
) -> Answer<(Vec<u8>, Vec<u8>, u32)> {
    let mut frame = load_frame(design3, blocks, info, red)?;
    let mut generator = Generator(seed);
    for bit in &mut frame {
        if generator.draw() < limit {
            *bit = 1 - *bit;
        }
    }
    let red = frame.split_off(info.len());
    Ok((frame, red, generator.0))
}

/// The first mode on one buffer of so many bits, without a design. The answer is the bits and the last state.
pub fn load_fill_buffer(seed: u32, length: usize) -> (Vec<u8>, u32) {
    let mut generator = Generator(seed);
    let bits = (0..length).map(|_| generator.step()).collect();
    (bits, generator.0)
}

/// The second mode on one buffer: rule 10. The answer is the bits and the last state.
pub fn load_errors_buffer(seed: u32, limit: u64, buffer: &[u8]) -> Answer<(Vec<u8>, u32)> {
    bits(buffer.iter().copied())?;
    let mut generator = Generator(seed);
    let turned = buffer.iter().map(|&bit| if generator.draw() < limit { 1 - bit } else { bit }).collect();
    Ok((turned, generator.0))
}

/// In how many places two buffers differ: rule 6, at 4, where their lengths do.
pub fn differences(x: &[u8], y: &[u8]) -> Answer<u64> {
    lengths(&[(4, y.len(), x.len())])?;
    Ok((0..x.len()).filter(|&k| x[k] != y[k]).count() as u64)
}

/// "A third mode turns a run of given length from a given place, cut at the frame's end; a place past the end turns none."
pub fn load_run(
    design3: (u64, u64, u64), blocks: u64, place: u64, length: u64, info: &[u8], red: &[u8],
) -> Answer<(Vec<u8>, Vec<u8>)> {
    let mut frame = load_frame(design3, blocks, info, red)?;
    let end = place as u128 + length as u128;
    for (k, bit) in frame.iter_mut().enumerate() {
        if place as u128 <= k as u128 && (k as u128) < end {
            *bit = 1 - *bit;
        }
    }
    let red = frame.split_off(info.len());
    Ok((frame, red))
}

// ---------------------------------------------------------------- Texts

/// A text read item by item. Every item has some right continuation at each of its bytes, so the first
/// byte that the item doesn't allow ends "the longest start that some text shares".
struct Text<'a> {
    bytes: &'a [u8],
    at: usize,
    rule: u64,
}

impl Text<'_> {
    fn next(&self) -> Option<u8> {
        self.bytes.get(self.at).copied()
    }
    fn wrong<T>(&self) -> Answer<T> {
        Err((self.rule, self.at as u64))
    }
    /// These bytes.
    fn fixed(&mut self, bytes: &str) -> Answer<()> {
        for byte in bytes.bytes() {
            if self.next() != Some(byte) {
                return self.wrong();
            }
            self.at += 1;
        }
        Ok(())
    }
    /// "Decimal numbers have one to four digits, no leading zero": after a first digit 0 comes no other,
    /// after four digits neither. What follows is the next item's.
    fn number(&mut self) -> Answer<u64> {
        let mut digits = String::new();
        while let Some(byte @ b'0'..=b'9') = self.next() {
            if digits == "0" || digits.len() == 4 {
                break;
            }
            digits.push(byte as char);
            self.at += 1;
        }
        digits.parse().or_else(|_| self.wrong())
    }
    /// So many characters 0 or 1.
    fn bits(&mut self, count: usize) -> Answer<Vec<u8>> {
        let mut bits = Vec::new();
        while bits.len() < count {
            match self.next() {
                Some(b'0') => bits.push(0),
                Some(b'1') => bits.push(1),
                _ => return self.wrong(),
            }
            self.at += 1;
        }
        Ok(bits)
    }
    fn end(&self) -> Answer<()> {
        if self.next().is_some() {
            return self.wrong();
        }
        Ok(())
    }
    /// `m t M` and its three numbers.
    fn two_lines(&mut self) -> Answer<(u64, u64, u64)> {
        self.fixed("m t M\n")?;
        let m = self.number()?;
        self.fixed(" ")?;
        let t = self.number()?;
        self.fixed(" ")?;
        let size = self.number()?;
        self.fixed("\n")?;
        Ok((m, t, size))
    }
    /// Block text up to where no further block can start or none does: the number of blocks, and the bits.
    fn blocks(&mut self, d: &Design, follows: &[Option<u8>]) -> Answer<(usize, Vec<u8>)> {
        self.fixed("block bits\n")?;
        let mut info = Vec::new();
        let mut count = 0;
        while count == 0 || count < 4096 && !follows.contains(&self.next()) {
            count += 1;
            self.fixed(&format!("{count} "))?;
            info.extend(self.bits(d.side() * d.side())?);
            self.fixed("\n")?;
        }
        Ok((count, info))
    }
}

/// The two lines of a kit text, then rules 1 to 3.
pub fn design_of_kit(text: &[u8]) -> Answer<Design> {
    let (m, t, size) = Text { bytes: text, at: 0, rule: 11 }.two_lines()?;
    design(m, t, size)
}

/// The same, then the rest: a kit text judged without buffers.
pub fn scan_kit(text: &[u8]) -> Answer<Design> {
    let d = design_of_kit(text)?;
    read_kit(text, 2 * d.order(), 2 * d.order(), d.order() * d.row_bytes())?;
    Ok(d)
}

/// "The reader takes two lines (11 ..), then 1 to 3, 6, then the rest (11); it doesn't judge lists."
pub fn read_kit(bytes: &[u8], own: usize, parity: usize, inverse: usize) -> Answer<(Design, Kit)> {
    let mut text = Text { bytes, at: 0, rule: 11 };
    let (m, t, size) = text.two_lines()?;
    let d = design(m, t, size)?;
    lengths(&[(1, own, 2 * d.order()), (2, parity, 2 * d.order()), (3, inverse, d.order() * d.row_bytes())])?;
    Ok((d, rest_of_kit(&mut text, &d)?))
}

/// Both lists, with the names before them.
fn lists_of_kit(text: &mut Text, d: &Design) -> Answer<(Vec<u8>, Vec<u8>)> {
    let (mut own, mut parity) = (vec![], vec![]);
    text.fixed("place self parity\n")?;
    for place in 0..d.order() {
        text.fixed(&format!("{place} "))?;
        own.extend((text.number()? as u16).to_le_bytes());
        text.fixed(" ")?;
        parity.extend((text.number()? as u16).to_le_bytes());
        text.fixed("\n")?;
    }
    Ok((own, parity))
}

fn rest_of_kit(text: &mut Text, d: &Design) -> Answer<Kit> {
    let (own, parity) = lists_of_kit(text, d)?;
    let mut w_matrix = Matrix::zero(d.order());
    text.fixed("row inverse\n")?;
    for row in 0..d.order() {
        text.fixed(&format!("{row} "))?;
        let line = text.bits(d.order())?;
        (0..d.order()).filter(|&column| line[column] == 1).for_each(|column| w_matrix.turn(row, column));
        text.fixed("\n")?;
    }
    text.end()?;
    Ok(Kit { m: d.m, t: d.t, size: d.size, own, parity, inverse: w_matrix.to_bytes() })
}

/// Block text: "`block bits`, then number and M × M bits, for 1 to 4,096 blocks numbered from 1 in order".
pub fn scan_blocks(m: u64, t: u64, size: u64, bytes: &[u8]) -> Answer<(u64, Vec<u8>)> {
    let d = design(m, t, size)?;
    let mut text = Text { bytes, at: 0, rule: 12 };
    let (count, info) = text.blocks(&d, &[None])?;
    text.end()?;
    Ok((count as u64, info))
}

/// The same into a buffer of this length (rule 6 at 4, after 12).
pub fn read_blocks(m: u64, t: u64, size: u64, bytes: &[u8], info: usize) -> Answer<(u64, Vec<u8>)> {
    let (count, bits) = scan_blocks(m, t, size, bytes)?;
    lengths(&[(4, info, bits.len())])?;
    Ok((count, bits))
}

/// `mend`'s text: "block text followed by group text in that form, with exactly G groups".
pub fn scan_frame(m: u64, t: u64, size: u64, bytes: &[u8]) -> Answer<(u64, Vec<u8>, Vec<u8>)> {
    let d = design(m, t, size)?;
    let mut text = Text { bytes, at: 0, rule: 12 };
    let (count, info) = text.blocks(&d, &[Some(b'g')])?;
    let mut red = Vec::new();
    text.fixed("group self parity\n")?;
    for i in 1..=groups(count) {
        text.fixed(&format!("{i} "))?;
        red.extend(text.bits(d.order())?);
        text.fixed(" ")?;
        red.extend(text.bits(d.order())?);
        text.fixed("\n")?;
    }
    text.end()?;
    Ok((count as u64, info, red))
}

/// The same into two buffers of these lengths (rule 6 at 4 and 5, after 12).
pub fn read_frame(m: u64, t: u64, size: u64, bytes: &[u8], info: usize, red: usize) -> Answer<(u64, Vec<u8>, Vec<u8>)> {
    let (count, info_bits, red_bits) = scan_frame(m, t, size, bytes)?;
    lengths(&[(4, info, info_bits.len()), (5, red, red_bits.len())])?;
    Ok((count, info_bits, red_bits))
}

// ---------------------------------------------------------------- What is written

fn characters(bits: &[u8]) -> String {
    bits.iter().map(|&bit| if bit == 0 { '0' } else { '1' }).collect()
}

/// "number and M × M bits"
pub fn block_line(number: u64, bits: &[u8]) -> String {
    format!("{number} {}\n", characters(bits))
}

/// "number, Y, P"
pub fn group_line(number: u64, own: &[u8], parity: &[u8]) -> String {
    format!("{number} {} {}\n", characters(own), characters(parity))
}

/// "A refusal prints `refused place` and the two."
pub fn refusal_lines(rule: u64, place: u64) -> String {
    format!("refused place\n{rule} {place}\n")
}

/// "`rounds turned outside` and the three numbers"
pub fn count_lines(rounds: u64, turned: u64, outside: u64) -> String {
    format!("rounds turned outside\n{rounds} {turned} {outside}\n")
}

pub fn block_text(d: &Design, info: &[u8]) -> String {
    let lines = info.chunks(d.side() * d.side()).zip(1..).map(|(block, i)| block_line(i, block));
    format!("block bits\n{}", lines.collect::<String>())
}

pub fn group_text(d: &Design, red: &[u8]) -> String {
    let lines = red.chunks(2 * d.order()).zip(1..).map(|(group, i)| {
        let (own, parity) = group.split_at(d.order());
        group_line(i, own, parity)
    });
    format!("group self parity\n{}", lines.collect::<String>())
}

/// The first part of a kit text: its two lines and those of the lists.
pub fn list_text(kit: &Kit) -> String {
    let mut text = format!("m t M\n{} {} {}\nplace self parity\n", kit.m, kit.t, kit.size);
    for (place, (own, parity)) in entries(&kit.own).into_iter().zip(entries(&kit.parity)).enumerate() {
        text += &format!("{place} {own} {parity}\n");
    }
    text
}

/// Kit text of a kit with lists and inverse of the design's lengths. "each entry counts with all its digits, even five"
pub fn kit_text(kit: &Kit) -> String {
    let order = (kit.m * kit.t * kit.size) as usize;
    let w_matrix = Matrix::from_bytes(order, &kit.inverse);
    let mut text = list_text(kit) + "row inverse\n";
    for row in 0..order {
        let line: Vec<u8> = (0..order).map(|column| w_matrix.bit(row, column) as u8).collect();
        text += &block_line(row as u64, &line);
    }
    text
}

/// The length of a kit's text, whatever its inverse: rules 1 to 3, and 6 for both lists.
pub fn kit_text_length(kit: &Kit) -> Answer<u64> {
    let d = design(kit.m, kit.t, kit.size)?;
    lengths(&[(1, kit.own.len(), 2 * d.order()), (2, kit.parity.len(), 2 * d.order())])?;
    let zero = Kit { inverse: vec![0; d.order() * d.row_bytes()], ..kit.clone() };
    Ok(kit_text(&zero).len() as u64)
}

/// The writer: "rules 1 to 3 and 6 to 8; rule 6 gains place 7, a text buffer whose length isn't the text's". The
/// answer is the text.
pub fn write_kit(kit: &Kit, text: usize) -> Answer<Vec<u8>> {
    let d = design(kit.m, kit.t, kit.size)?;
    lengths(&[
        (1, kit.own.len(), 2 * d.order()),
        (2, kit.parity.len(), 2 * d.order()),
        (3, kit.inverse.len(), d.order() * d.row_bytes()),
    ])?;
    let written = kit_text(kit).into_bytes();
    lengths(&[(7, text, written.len())])?;
    permutations(&d, &kit.own, &kit.parity)?;
    spare_bits(&d, &kit.inverse)?;
    Ok(written)
}

// ---------------------------------------------------------------- Programs

/// "A program tests 13 for both inputs, then reads the kit": rule 13, then the kit.
fn program_kit(kit: &[u8], text: &[u8]) -> Answer<(Design, Kit)> {
    if kit.len() > 32768 {
        return Err((13, 1));
    }
    if text.len() > 32768 {
        return Err((13, 2));
    }
    let d = design_of_kit(kit)?;
    read_kit(kit, 2 * d.order(), 2 * d.order(), d.order() * d.row_bytes())
}

fn frame_program(kit: &[u8], text: &[u8]) -> Answer<String> {
    let (d, kit) = program_kit(kit, text)?;
    let (blocks, info) = scan_blocks(d.m, d.t, d.size, text)?;
    let red = encode(&kit, blocks, &info, red_len(&d, blocks as usize), d.kit_work())?;
    Ok(group_text(&d, &red))
}

/// "The old three numbers read as before, and `mend` prints only those."
fn mend_program(kit: &[u8], text: &[u8]) -> Answer<String> {
    let (d, kit) = program_kit(kit, text)?;
    let (blocks, info, red) = scan_frame(d.m, d.t, d.size, text)?;
    let lent = Received { m: d.m, t: d.t, size: d.size, blocks, own: kit.own, parity: kit.parity, info, red };
    let (info, red, counts) = decode(&lent, 0, d.decoder_work(blocks as usize))?;
    Ok(block_text(&d, &info) + &group_text(&d, &red) + &count_lines(counts.rounds, counts.turned, counts.outside))
}

/// `makekit`: rule 13 for the list text, 11 (two lines, then rules 1 to 3, then the rest), rule 13 for the kit text that
/// would be printed, and then the maker's rules 7 and 14.
fn makekit_program(list_text: &[u8]) -> Answer<String> {
    if list_text.len() > 32768 {
        return Err((13, 2));
    }
    let mut text = Text { bytes: list_text, at: 0, rule: 11 };
    let (m, t, size) = text.two_lines()?;
    let d = design(m, t, size)?;
    let (own, parity) = lists_of_kit(&mut text, &d)?;
    text.end()?;
    let mut kit = Kit { m, t, size, own, parity, inverse: vec![0; d.order() * d.row_bytes()] };
    if kit_text(&kit).len() > 32768 {
        return Err((13, 1));
    }
    kit.inverse = make_inverse(&kit, d.make_work())?;
    Ok(kit_text(&kit))
}

fn printed(answer: Answer<String>) -> String {
    answer.unwrap_or_else(|(rule, place)| refusal_lines(rule, place))
}

/// What `frame` prints for kit.txt and standard input.
pub fn frame_prints(kit: &[u8], text: &[u8]) -> String {
    printed(frame_program(kit, text))
}

/// What `mend` prints for kit.txt and standard input.
pub fn mend_prints(kit: &[u8], text: &[u8]) -> String {
    printed(mend_program(kit, text))
}

/// What `makekit` prints for standard input.
pub fn makekit_prints(list_text: &[u8]) -> String {
    printed(makekit_program(list_text))
}

// ---------------------------------------------------------------- Lengths

/// r, n, k, G and the lengths in bytes: a list, the inverse, information, redundancy, the working bytes of kit checker, maker, encoder, word
/// checker, decoder and loopback, and a row of the inverse. Rules 1 to 4.
pub fn all_sizes(m: u64, t: u64, size: u64, blocks: u64) -> Answer<[u64; 15]> {
    let d = design(m, t, size)?;
    let blocks = block_count(blocks)?;
    let sizes = [
        d.r(),
        d.n(),
        d.k(),
        groups(blocks),
        2 * d.order(),
        d.order() * d.row_bytes(),
        info_len(&d, blocks),
        red_len(&d, blocks),
        d.kit_work(),
        d.make_work(),
        d.kit_work(),
        d.word_work(),
        d.decoder_work(blocks),
        d.loopback_work(blocks),
        d.row_bytes(),
    ];
    Ok(sizes.map(|length| length as u64))
}

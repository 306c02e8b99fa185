//! Compares the library with the reference, call by call: the number, the place, what is told, and every
//! lent buffer (8 guard bytes on either side of it too) but the working bytes.
//!
//!     compare [--programs FRAME MEND MAKEKIT] [GROUP [SEED [INDEX]]]
//!
//! Without GROUP (or with `all`) every group runs. A failing case is printed with its group, seed and
//! index; these three as arguments run it alone. A line for each group ends with how often each number was
//! the right answer, and with how often the group met what it is for; one that never meets it has failed. The last line
//! counts compared calls and checks.

mod host;
mod original;
mod reference;

use reference::*;
use std::collections::{BTreeMap, HashMap};
use std::io::Write;
use std::ops::Range;
use std::path::PathBuf;
use std::process::{Command, Stdio};
use std::sync::atomic::{AtomicU64, AtomicUsize, Ordering::Relaxed};
use std::sync::{Arc, Mutex};

const GUARD: usize = 8;
const OUT: usize = 262_144; // the least that bauchleton_frame, bauchleton_mend and bauchleton_makekit want to be lent
const INPUT: usize = 32_768; // rule 13

// ---------------------------------------------------------------- Random numbers

/// xorshift64*, by which cases are chosen; what a frame holds is the library's load
#[derive(Clone)]
struct Rng(u64);

impl Rng {
    fn new(parts: &[u64]) -> Rng {
        let mut rng = Rng(0x9E37_79B9_7F4A_7C15);
        for part in parts {
            rng.0 = (rng.0 ^ part.wrapping_mul(0xD134_2543_DE82_EF95)) | 1;
            for _ in 0..4 {
                rng.next();
            }
        }
        rng
    }
    fn next(&mut self) -> u64 {
        self.0 ^= self.0 >> 12;
        self.0 ^= self.0 << 25;
        self.0 ^= self.0 >> 27;
        self.0.wrapping_mul(0x2545_F491_4F6C_DD1D)
    }
    /// below `limit`
    fn below(&mut self, limit: usize) -> usize {
        ((self.next() >> 32) as usize * limit) >> 32
    }
    fn pick<T: Clone>(&mut self, from: &[T]) -> T {
        from[self.below(from.len())].clone()
    }
    fn bits(&mut self, count: usize) -> Vec<u8> {
        (0..count).map(|_| (self.next() >> 63) as u8).collect()
    }
    fn bytes(&mut self, count: usize) -> Vec<u8> {
        (0..count).map(|_| (self.next() >> 56) as u8).collect()
    }
    fn permutation(&mut self, count: usize) -> Vec<usize> {
        let mut list: Vec<usize> = (0..count).collect();
        for i in (1..count).rev() {
            list.swap(i, self.below(i + 1));
        }
        list
    }
}

fn hash(name: &str) -> u64 {
    name.bytes().fold(7, |h: u64, byte| h.wrapping_mul(1_000_003) ^ byte as u64)
}

// ---------------------------------------------------------------- Kits

/// Has A an inverse? Elimination below the diagonal, much cheaper than the inverse.
fn regular(a_matrix: &Matrix) -> bool {
    let mut rows = a_matrix.rows.clone();
    for column in 0..a_matrix.order {
        let has = |row: &Vec<u64>| row[column / 64] >> (column % 64) & 1 == 1;
        let Some(found) = (column..rows.len()).find(|&i| has(&rows[i])) else { return false };
        rows.swap(column, found);
        let (above, below) = rows.split_at_mut(column + 1);
        for row in below.iter_mut().filter(|row| has(row)) {
            row.iter_mut().zip(&above[column]).skip(column / 64).for_each(|(to, from)| *to ^= from);
        }
    }
    true
}

fn list_bytes(list: &[usize]) -> Vec<u8> {
    list.iter().flat_map(|&entry| (entry as u16).to_le_bytes()).collect()
}

/// A kit that passes, its inverse also as a matrix.
struct Good {
    d: Design,
    kit: Kit,
    w_matrix: Matrix,
}

/// Random lists until A has an inverse.
fn search(d: Design, seed: u64) -> Good {
    let mut rng = Rng::new(&[hash("kit"), seed, d.m, d.t, d.size]);
    loop {
        let (own, parity) = (rng.permutation(d.order()), rng.permutation(d.order()));
        let kit_of = |inverse| Kit { m: d.m, t: d.t, size: d.size, own: list_bytes(&own), parity: list_bytes(&parity), inverse };
        let a_matrix = system(&Shape::new(d, 1, own.clone(), parity.clone()));
        if regular(&a_matrix) {
            let w_matrix = inverse(&a_matrix).unwrap();
            return Good { d, kit: kit_of(w_matrix.to_bytes()), w_matrix };
        }
    }
}

/// Kit K of document 01.
fn kit_k() -> Kit {
    Kit {
        m: 4,
        t: 1,
        size: 1,
        own: list_bytes(&[1, 0, 2, 3]),
        parity: list_bytes(&[3, 0, 1, 2]),
        inverse: vec![0b0101, 0b1010, 0b1011, 0b0010],
    }
}

/// The 18 pairs m, t that have designs.
fn pairs() -> Vec<(u64, u64)> {
    (4..=10).flat_map(|m| (1..=3).map(move |t| (m, t))).filter(|&(m, t)| design(m, t, 1).is_ok()).collect()
}

fn largest(m: u64, t: u64) -> u64 {
    (1..=500).rev().find(|&size| design(m, t, size).is_ok()).unwrap()
}

/// For a pair: the sizes 1, some small and middle ones, and the largest one.
fn sizes(m: u64, t: u64) -> Vec<u64> {
    let last = largest(m, t);
    let mut sizes = vec![1, 2, 3, 5, last / 2, last - 1, last];
    sizes.retain(|&size| size >= 1 && size <= last);
    sizes.sort();
    sizes.dedup();
    sizes
}

/// All designs of `sizes` with at most so many rows.
fn designs(rows: usize) -> Vec<Design> {
    let all = pairs().into_iter().flat_map(|(m, t)| sizes(m, t).into_iter().map(move |size| design(m, t, size).unwrap()));
    all.filter(|d| d.order() <= rows).collect()
}

// ---------------------------------------------------------------- Cases

struct Context {
    seed: u64,
    kits: Mutex<HashMap<(u64, u64, u64), Arc<Good>>>,
    /// frame, mend and makekit
    programs: Option<[PathBuf; 3]>,
    folder: PathBuf,
    /// failures of the group so far; the first 20 are printed
    printed: AtomicU64,
}

impl Context {
    fn kit(&self, d: Design) -> Arc<Good> {
        let key = (d.m, d.t, d.size);
        let found = self.kits.lock().unwrap().get(&key).cloned();
        found.unwrap_or_else(|| {
            let made = Arc::new(search(d, self.seed));
            self.kits.lock().unwrap().insert(key, made.clone());
            made
        })
    }
}

/// Everything that a call on buffers may be lent.
#[derive(Clone)]
struct Lent {
    m: u64,
    t: u64,
    size: u64,
    blocks: u64,
    frames: u64,
    rounds: u64,
    window: u64,
    own: Vec<u8>,
    parity: Vec<u8>,
    inverse: Vec<u8>,
    info: Vec<u8>,
    red: Vec<u8>,
    kit_work: usize,
    make_work: usize,
    word_work: usize,
    decoder_work: usize,
    loopback_work: usize,
    info_errors: Vec<u8>,
    red_errors: Vec<u8>,
}

impl Lent {
    /// A kit with buffers of the right lengths for L blocks.
    fn new(kit: &Kit, blocks: usize, info: Vec<u8>, red: Vec<u8>) -> Lent {
        let d = Design { m: kit.m, t: kit.t, size: kit.size };
        Lent {
            m: kit.m,
            t: kit.t,
            size: kit.size,
            blocks: blocks as u64,
            frames: 1,
            rounds: 0,
            window: 1,
            own: kit.own.clone(),
            parity: kit.parity.clone(),
            inverse: kit.inverse.clone(),
            info,
            red,
            kit_work: d.kit_work(),
            make_work: d.make_work(),
            word_work: d.word_work(),
            decoder_work: d.decoder_work(blocks),
            loopback_work: d.loopback_work(blocks),
            info_errors: vec![],
            red_errors: vec![],
        }
    }
    fn design(&self) -> (u64, u64, u64) {
        (self.m, self.t, self.size)
    }
    /// Turns a bit, counted through the information and on through the redundancy.
    fn turn(&mut self, place: usize) {
        let at = place.checked_sub(self.info.len());
        at.map_or_else(|| self.info[place] ^= 1, |at| self.red[at] ^= 1);
    }
    fn kit(&self) -> Kit {
        Kit {
            m: self.m,
            t: self.t,
            size: self.size,
            own: self.own.clone(),
            parity: self.parity.clone(),
            inverse: self.inverse.clone(),
        }
    }
    fn received(&self) -> Received {
        Received {
            m: self.m,
            t: self.t,
            size: self.size,
            blocks: self.blocks,
            own: self.own.clone(),
            parity: self.parity.clone(),
            info: self.info.clone(),
            red: self.red.clone(),
        }
    }
}

/// What is expected of a call: the number returned, what `answer` holds, and the lent buffers afterwards.
struct Expected {
    number: u64,
    told: Vec<u64>,
    buffers: Vec<Vec<u8>>,
}

/// Number and `answer` of a result: the place, then what is told, zeros where refused.
fn answered<T>(result: &Answer<T>, told: impl Fn(&T) -> Vec<u64>, entries: usize) -> (u64, Vec<u64>) {
    match result {
        Ok(value) => (0, [vec![0], told(value)].concat()),
        Err((number, place)) => (*number, [vec![*place], vec![0; entries - 1]].concat()),
    }
}

/// The bytes of a report.
const REPORT: usize = 40;

/// A rule whose refusal is told before that of a report of another length.
fn before_report(number: u64) -> bool {
    matches!(number, 1..=6 | 17 | 18)
}

/// The numbers of a report: place, rounds, turned, outside, stuck.
fn report_numbers(report: [u8; REPORT]) -> [u64; 5] {
    [0, 1, 2, 3, 4].map(|at| u64::from_le_bytes(report[8 * at..][..8].try_into().unwrap()))
}

/// What decoder and loopback tell.
fn counted((_, _, counts): &(Vec<u8>, Vec<u8>, Counts)) -> Vec<u64> {
    vec![counts.rounds, counts.turned, counts.outside, counts.stuck]
}

/// The number of the rule that a printed refusal names, else 0.
fn refused(printed: &str) -> u64 {
    let numbers = printed.strip_prefix("refused place\n").unwrap_or("0 0");
    numbers.split(' ').next().unwrap().parse().unwrap()
}

struct Case<'a> {
    context: &'a Context,
    group: &'static str,
    index: usize,
    thread: usize,
    rng: Rng,
    passed: u64,
    failed: u64,
    /// how much longer `answer` is than it should be, in entries, or a report, in bytes
    answer_extra: isize,
    /// how often each rule's number (0: none) was the right answer
    numbers: BTreeMap<u64, u64>,
    /// how often the cases met what is named
    met: BTreeMap<&'static str, u64>,
}

impl Case<'_> {
    fn meets(&mut self, what: &'static str, holds: bool) {
        *self.met.entry(what).or_default() += holds as u64;
    }
    fn fail(&mut self, what: String) {
        self.failed += 1;
        if self.context.printed.fetch_add(1, Relaxed) < 20 {
            println!("FAILED {} {} {}: {what}", self.group, self.context.seed, self.index);
        }
    }
    fn check(&mut self, what: &str, holds: bool) {
        if holds {
            self.passed += 1;
        } else {
            self.fail(what.to_string());
        }
    }
    fn same<T: PartialEq + std::fmt::Debug>(&mut self, what: &str, expected: T, found: T) {
        if expected == found {
            self.passed += 1;
        } else {
            self.fail(format!("{what}: expected {expected:?}, found {found:?}"));
        }
    }
    /// Lends guarded copies of the buffers, working bytes and an answer, and compares what is left.
    fn call(
        &mut self, name: &str, buffers: &[&[u8]], work: usize, expected: Expected,
        run: impl FnOnce(&mut [&mut [u8]], &mut [u8], &mut [u64]) -> u64,
    ) {
        let guarded = |bytes: &[u8]| [&[0xEE; GUARD][..], bytes, &[0xEE; GUARD][..]].concat();
        let mut lent: Vec<Vec<u8>> = buffers.iter().map(|bytes| guarded(bytes)).collect();
        let mut working = guarded(&self.rng.bytes(work));
        let old: Vec<u64> = (0..(expected.told.len() as isize + self.answer_extra).max(0)).map(|_| self.rng.next()).collect();
        let mut answer = old.clone();
        let number = {
            let mut inner: Vec<&mut [u8]> =
                lent.iter_mut().zip(buffers).map(|(all, bytes)| &mut all[GUARD..GUARD + bytes.len()]).collect();
            run(&mut inner, &mut working[GUARD..GUARD + work], &mut answer)
        };
        let told = if self.answer_extra == 0 { expected.told } else { old };
        if !name.contains(' ') || name.starts_with("design") || name.starts_with("sizes") || name.starts_with("show") {
            *self.numbers.entry(expected.number).or_default() += 1;
        }
        if number != expected.number || answer != told {
            let (want, told) = (expected.number, told);
            return self.fail(format!("{name}: expected {want} {told:?}, found {number} {answer:?}"));
        }
        for (at, (left, right)) in lent.iter().zip(&expected.buffers).enumerate() {
            if *left != guarded(right) {
                let byte = left.iter().zip(guarded(right)).position(|(a, b)| *a != b).unwrap() as isize - GUARD as isize;
                return self.fail(format!("{name}: answered {number} {answer:?}, lent buffer {at} differs at byte {byte}"));
            }
        }
        if guarded(&vec![0; work])[..GUARD] != working[..GUARD] || working[GUARD + work..] != [0xEE; GUARD] {
            return self.fail(format!("{name}: wrote outside the working bytes"));
        }
        self.passed += 1;
    }

    /// The same for a call that is lent a report: 40 bytes, the numbers that are told and zeros. One of another length is refused by 6, behind
    /// rules 1 to 5, 17 and 18 and the other slices of rule 6 but the tally; then nothing is written.
    fn call_reporting(
        &mut self, name: &str, buffers: &[&[u8]], work: usize, expected: Expected,
        run: impl FnOnce(&mut [&mut [u8]], &mut [u8], &mut [u8]) -> u64,
    ) {
        let old = self.rng.bytes((REPORT as isize + self.answer_extra).max(0) as usize);
        let Expected { mut number, told, buffers: mut left } = expected;
        let mut report: Vec<u8> = told.iter().flat_map(|number| number.to_le_bytes()).collect();
        report.resize(REPORT, 0);
        if old.len() != REPORT {
            number = if before_report(number) { number } else { 6 };
            left = buffers.iter().map(|bytes| bytes.to_vec()).collect();
            report = old.clone();
        }
        left.push(report);
        let lent: Vec<&[u8]> = buffers.iter().copied().chain([&old[..]]).collect();
        self.call(name, &lent, work, Expected { number, told: vec![], buffers: left }, |b, w, _| {
            let (report, lent) = b.split_last_mut().unwrap();
            run(lent, w, report)
        });
    }

    // The calls on numbers and buffers.

    fn design(&mut self, m: u64, t: u64, size: u64) {
        let (number, told) =
            answered(&design(m, t, size), |d| vec![d.r() as u64, d.n() as u64, d.k() as u64], 4);
        self.call(&format!("design {m} {t} {size}"), &[], 0, Expected { number, told, buffers: vec![] }, |_, _, a| {
            host::design(m, t, size, a)
        });
    }
    /// Every length for a design and a number of blocks.
    fn sizes(&mut self, (m, t, size): (u64, u64, u64), blocks: u64) {
        let result = all_sizes(m, t, size, blocks);
        let (number, told) = answered(&result, |sizes| sizes.to_vec(), 16);
        self.call(&format!("sizes {m} {t} {size} {blocks}"), &[], 0, Expected { number, told, buffers: vec![] }, |_, _, a| {
            host::sizes(m, t, size, blocks, a)
        });
    }
    fn check_kit(&mut self, l: &Lent) {
        let (number, told) = answered(&check_kit(&l.kit(), l.kit_work), |_| vec![], 1);
        let buffers = vec![l.own.clone(), l.parity.clone(), l.inverse.clone()];
        self.call_reporting("check_kit", &[&l.own, &l.parity, &l.inverse], l.kit_work, Expected { number, told, buffers }, |b, w, a| {
            host::check_kit(l.design(), b[0], b[1], b[2], w, a)
        });
    }
    fn encode(&mut self, l: &Lent) {
        let result = encode(&l.kit(), l.blocks, &l.info, l.red.len(), l.kit_work);
        let (number, told) = answered(&result, |_| vec![], 1);
        let red = result.unwrap_or(l.red.clone());
        let buffers = vec![l.own.clone(), l.parity.clone(), l.inverse.clone(), l.info.clone(), red];
        let lent: [&[u8]; 5] = [&l.own, &l.parity, &l.inverse, &l.info, &l.red];
        self.call_reporting("encode", &lent, l.kit_work, Expected { number, told, buffers }, |b, w, a| {
            let [own, parity, inverse, info, red] = b else { unreachable!() };
            host::encode(l.design(), l.blocks, own, parity, inverse, info, red, w, a)
        });
    }
    /// The answer is the joined redundancy, by the reference.
    fn encode_batch(&mut self, l: &Lent) -> Vec<u8> {
        let result = encode_batch(&l.kit(), l.blocks, l.frames, &l.info, l.red.len(), l.kit_work);
        let (number, told) = answered(&result, |_| vec![], 1);
        let left = result.unwrap_or(l.red.clone());
        let buffers = vec![l.own.clone(), l.parity.clone(), l.inverse.clone(), l.info.clone(), left.clone()];
        let lent: [&[u8]; 5] = [&l.own, &l.parity, &l.inverse, &l.info, &l.red];
        self.call_reporting("encode_batch", &lent, l.kit_work, Expected { number, told, buffers }, |b, w, a| {
            let [own, parity, inverse, info, red] = b else { unreachable!() };
            host::encode_batch(l.design(), l.blocks, l.frames, own, parity, inverse, info, red, w, a)
        });
        left
    }
    fn check_words(&mut self, l: &Lent) {
        let (number, told) = answered(&check_words(&l.received(), l.word_work), |&outside| vec![outside], 2);
        let buffers = vec![l.own.clone(), l.parity.clone(), l.info.clone(), l.red.clone()];
        let lent: [&[u8]; 4] = [&l.own, &l.parity, &l.info, &l.red];
        self.call("check_words", &lent, l.word_work, Expected { number, told, buffers }, |b, w, a| {
            host::check_words(l.design(), l.blocks, b[0], b[1], b[2], b[3], w, a)
        });
    }
    /// The answer is what the decoder leaves in information and redundancy, by the reference.
    fn decode(&mut self, l: &Lent) -> (Vec<u8>, Vec<u8>) {
        let result = decode(&l.received(), l.rounds, l.decoder_work);
        let (number, told) = answered(&result, counted, 5);
        let (info, red) = result.map_or((l.info.clone(), l.red.clone()), |(info, red, _)| (info, red));
        let buffers = vec![l.own.clone(), l.parity.clone(), info.clone(), red.clone()];
        let lent: [&[u8]; 4] = [&l.own, &l.parity, &l.info, &l.red];
        self.call_reporting("decode", &lent, l.decoder_work, Expected { number, told, buffers }, |b, w, a| {
            let [own, parity, info, red] = b else { unreachable!() };
            host::decode(l.design(), l.blocks, l.rounds, own, parity, info, red, w, a)
        });
        (info, red)
    }
    /// The answer is the reference's: what is left in information and redundancy, and the counts of an accepted call.
    fn decode_window(&mut self, l: &Lent) -> Answer<(Vec<u8>, Vec<u8>, Counts)> {
        let result = decode_window(&l.received(), l.rounds, l.window, l.decoder_work);
        let (number, told) = answered(&result, counted, 5);
        let (info, red) = result.as_ref().map_or((&l.info, &l.red), |(info, red, _)| (info, red));
        let buffers = vec![l.own.clone(), l.parity.clone(), info.clone(), red.clone()];
        let lent: [&[u8]; 4] = [&l.own, &l.parity, &l.info, &l.red];
        self.call_reporting("decode_window", &lent, l.decoder_work, Expected { number, told, buffers }, |b, w, a| {
            let [own, parity, info, red] = b else { unreachable!() };
            host::decode_window(l.design(), l.blocks, l.rounds, l.window, own, parity, info, red, w, a)
        });
        result
    }
    /// The answer is the tally afterwards, by the reference, and the counts of an accepted call.
    fn decode_tallied(&mut self, l: &Lent, tally: &[u64]) -> (Vec<u64>, Answer<Counts>) {
        let result = decode_tallied(&l.received(), l.rounds, l.decoder_work, tally);
        let (number, told) = answered(&result, |(decoded, _)| counted(decoded), 5);
        let (info, red) = result.as_ref().map_or((l.info.clone(), l.red.clone()), |((info, red, _), _)| (info.clone(), red.clone()));
        let left = result.as_ref().ok().filter(|_| self.answer_extra == 0).map_or(tally.to_vec(), |(_, after)| after.to_vec());
        let buffers = vec![l.own.clone(), l.parity.clone(), info, red];
        let lent: [&[u8]; 4] = [&l.own, &l.parity, &l.info, &l.red];
        let guarded = |totals: &[u64]| [&[0xEEEE][..], totals, &[0xEEEE][..]].concat();
        let mut totals = guarded(tally);
        self.call_reporting("decode_tallied", &lent, l.decoder_work, Expected { number, told, buffers }, |b, w, a| {
            let [own, parity, info, red] = b else { unreachable!() };
            let end = totals.len() - 1;
            host::decode_tallied(l.design(), l.blocks, l.rounds, own, parity, info, red, w, &mut totals[1..end], a)
        });
        self.same("the tally after decode_tallied", guarded(&left), totals);
        (left, result.map(|((_, _, counts), _)| counts))
    }
    /// The answer is the share, by the reference.
    fn report(&mut self, tally: &[u64]) -> Answer<(u64, u64)> {
        let result = report(tally);
        let (number, told) = answered(&result, |(totals, top, bottom)| [&totals[..], &[*top, *bottom]].concat(), 9);
        self.call("report", &[], 0, Expected { number, told, buffers: vec![] }, |_, _, a| host::report(tally, a));
        result.map(|(_, top, bottom)| (top, bottom))
    }
    /// A tally: empty, of numbers of any size up to 2^62, with some totals above, or of another length.
    fn some_tally(&mut self) -> Vec<u64> {
        let mut tally: Vec<u64> = (0..6).map(|_| self.rng.next() >> (2 + self.rng.below(62))).collect();
        match self.rng.below(8) {
            0 => tally.fill(0),
            1 => tally.fill(1 << 62),
            2 => tally[self.rng.below(6)] = (1 << 62) + 1,
            3 => tally.iter_mut().for_each(|total| *total <<= self.rng.below(4)),
            4 => tally.resize(self.rng.pick(&[0, 1, 5, 7, 12]), self.rng.next()),
            _ => {}
        }
        tally
    }
    fn loopback(&mut self, l: &Lent) {
        let result =
            loopback(&l.kit(), l.blocks, l.rounds, (&l.info_errors, &l.red_errors), &l.info, l.red.len(), l.loopback_work);
        let (number, told) = answered(&result, counted, 5);
        let (info, red) = result.map_or((l.info.clone(), l.red.clone()), |(info, red, _)| (info, red));
        let same = [&l.own, &l.parity, &l.inverse, &l.info_errors, &l.red_errors];
        let buffers = same.iter().map(|b| b.to_vec()).chain([info, red]).collect();
        let lent: Vec<&[u8]> = same.iter().map(|b| &b[..]).chain([&l.info[..], &l.red[..]]).collect();
        self.call("loopback", &lent, l.loopback_work, Expected { number, told, buffers }, |b, w, a| {
            let [own, parity, inverse, info_errors, red_errors, info, red] = b else { unreachable!() };
            host::loopback(l.design(), l.blocks, l.rounds, own, parity, inverse, info_errors, red_errors, info, red, w, a)
        });
    }
    fn show(&mut self, l: &Lent, kind: u64, number: u64, out_len: usize) {
        let out = self.rng.bytes(out_len);
        let result = show(l.design(), l.blocks, kind, number, &l.info, &l.red);
        let (returned, told) = answered(&result, |stretch| vec![stretch.len() as u64], 2);
        let mut after = out.clone();
        if let Ok(stretch) = result {
            if stretch.len() <= out_len {
                after[..stretch.len()].copy_from_slice(stretch);
            }
        }
        let expected = Expected { number: returned, told, buffers: vec![l.info.clone(), l.red.clone(), after] };
        self.call(&format!("show {kind} {number}"), &[&l.info, &l.red, &out], 0, expected, |b, _, a| {
            let [info, red, out] = b else { unreachable!() };
            host::show(l.design(), l.blocks, kind, number, info, red, out, a)
        });
    }
    /// The answer is what is left in the information, by the reference, and the last state.
    fn load_fill(&mut self, l: &Lent, seed: u32) -> (Vec<u8>, u32) {
        let result = load_fill(l.design(), l.blocks, seed, l.info.len());
        let (number, told) = answered(&result, |(_, state)| vec![*state as u64], 2);
        let (info, state) = result.unwrap_or((l.info.clone(), 0));
        self.call("load_fill", &[&l.info], 0, Expected { number, told, buffers: vec![info.clone()] }, |b, _, a| {
            host::load_fill(l.design(), l.blocks, seed, b[0], a)
        });
        (info, state)
    }
    /// The answer is what is left in both buffers, by the reference, and the last state.
    fn load_errors(&mut self, l: &Lent, seed: u32, limit: u64) -> (Vec<u8>, Vec<u8>, u32) {
        let result = load_errors(l.design(), l.blocks, seed, limit, &l.info, &l.red);
        let (number, told) = answered(&result, |(_, _, state)| vec![*state as u64], 2);
        let (info, red, state) = result.unwrap_or((l.info.clone(), l.red.clone(), 0));
        let expected = Expected { number, told, buffers: vec![info.clone(), red.clone()] };
        self.call("load_errors", &[&l.info, &l.red], 0, expected, |b, _, a| {
            let [info, red] = b else { unreachable!() };
            host::load_errors(l.design(), l.blocks, seed, limit, info, red, a)
        });
        (info, red, state)
    }
    /// The answer is what is left in both buffers, by the reference.
    fn load_run(&mut self, l: &Lent, place: u64, length: u64) -> (Vec<u8>, Vec<u8>) {
        let result = load_run(l.design(), l.blocks, place, length, &l.info, &l.red);
        let (number, told) = answered(&result, |_| vec![], 1);
        let (info, red) = result.unwrap_or((l.info.clone(), l.red.clone()));
        let expected = Expected { number, told, buffers: vec![info.clone(), red.clone()] };
        self.call("load_run", &[&l.info, &l.red], 0, expected, |b, _, a| {
            let [info, red] = b else { unreachable!() };
            host::load_run(l.design(), l.blocks, place, length, info, red, a)
        });
        (info, red)
    }
    /// The two calls of the test load on one buffer. The answer is what the second leaves, by the reference.
    fn load_buffer(&mut self, buffer: &[u8], seed: u32, limit: u64) -> Vec<u8> {
        let (filled, state) = load_fill_buffer(seed, buffer.len());
        let expected = Expected { number: 0, told: vec![0, state as u64], buffers: vec![filled] };
        self.call("load_fill_buffer", &[buffer], 0, expected, |b, _, a| host::load_fill_buffer(seed, b[0], a));
        let result = load_errors_buffer(seed, limit, buffer);
        let (number, told) = answered(&result, |(_, state)| vec![*state as u64], 2);
        let turned = result.map_or(buffer.to_vec(), |(turned, _)| turned);
        let expected = Expected { number, told, buffers: vec![turned.clone()] };
        self.call("load_errors_buffer", &[buffer], 0, expected, |b, _, a| host::load_errors_buffer(seed, limit, b[0], a));
        turned
    }
    fn differences(&mut self, x: &[u8], y: &[u8]) {
        let (number, told) = answered(&differences(x, y), |count| vec![*count], 2);
        let expected = Expected { number, told, buffers: vec![x.to_vec(), y.to_vec()] };
        self.call("differences", &[x, y], 0, expected, |b, _, a| host::differences(b[0], b[1], a));
    }
    fn order(&mut self, (m, t, size): (u64, u64, u64)) {
        let (number, told) = answered(&design(m, t, size), |d| vec![d.order() as u64], 2);
        self.call("order", &[], 0, Expected { number, told, buffers: vec![] }, |_, _, a| host::order(m, t, size, a));
    }
    fn original_sizes(&mut self, (m, t, size): (u64, u64, u64), blocks: u64) {
        let (number, told) = answered(&original::original_sizes(m, t, size, blocks), |sizes| sizes.clone(), 5);
        self.call("original_sizes", &[], 0, Expected { number, told, buffers: vec![] }, |_, _, a| host::original_sizes((m, t, size), blocks, a));
    }
    /// The three calls of the test load, from a random seed.
    fn loads(&mut self, l: &Lent) {
        let seed = self.rng.next() as u32;
        self.load_fill(l, seed);
        let limit = self.rng.pick(&[0, 655, 32_768, 65_535, 65_536, u64::MAX]);
        self.load_errors(l, seed, limit);
        let place = self.rng.below(l.info.len() + l.red.len() + 2) as u64;
        let length = self.rng.pick(&[1, 7, 1 << 20, u64::MAX]);
        self.load_run(l, place, length);
    }
    /// The seven calls that are lent lists, showing the first block and the last group, and the test load.
    fn all(&mut self, l: &Lent) {
        self.check_kit(l);
        self.encode(l);
        self.check_words(l);
        self.decode(l);
        let tally = self.some_tally();
        drop(self.decode_tallied(l, &tally));
        drop(self.decode_window(l));
        self.loopback(l);
        self.show(l, 0, 1, l.info.len());
        self.show(l, 1, (l.blocks / 2).max(1), l.red.len());
        self.loads(l);
    }

    // The maker and the writer.

    /// The inverse is the buffer for W. The answer is what the maker leaves there, by the reference.
    fn make_inverse(&mut self, l: &Lent) -> Vec<u8> {
        let result = make_inverse(&l.kit(), l.make_work);
        let (number, told) = answered(&result, |_| vec![], 1);
        let left = result.unwrap_or(l.inverse.clone());
        let buffers = vec![l.own.clone(), l.parity.clone(), left.clone()];
        self.call("make_inverse", &[&l.own, &l.parity, &l.inverse], l.make_work, Expected { number, told, buffers }, |b, w, a| {
            let [own, parity, inverse] = b else { unreachable!() };
            host::make_inverse(l.design(), own, parity, inverse, w, a)
        });
        left
    }
    /// Into lists of these lengths.
    fn spread_lists(&mut self, (m, t, size): (u64, u64, u64), own: usize, parity: usize) {
        let (own, parity) = (self.rng.bytes(own), self.rng.bytes(parity));
        let result = spread_lists(m, t, size, own.len(), parity.len());
        let (number, told) = answered(&result, |_| vec![], 1);
        let left = result.unwrap_or((own.clone(), parity.clone()));
        self.call("spread_lists", &[&own, &parity], 0, Expected { number, told, buffers: vec![left.0, left.1] }, |b, _, a| {
            let [own, parity] = b else { unreachable!() };
            host::spread_lists((m, t, size), own, parity, a)
        });
    }
    /// Into lists of these lengths.
    fn mixed_lists(&mut self, (m, t, size): (u64, u64, u64), seed: u32, own: usize, parity: usize) {
        let (own, parity) = (self.rng.bytes(own), self.rng.bytes(parity));
        let result = mixed_lists(m, t, size, seed, own.len(), parity.len());
        let (number, told) = answered(&result, |(_, _, state)| vec![*state as u64], 2);
        let left = result.map_or((own.clone(), parity.clone()), |(own, parity, _)| (own, parity));
        self.call("mixed_lists", &[&own, &parity], 0, Expected { number, told, buffers: vec![left.0, left.1] }, |b, _, a| {
            let [own, parity] = b else { unreachable!() };
            host::mixed_lists((m, t, size), seed, own, parity, a)
        });
    }
    /// The answer is the length, by the reference; a small one where it is refused.
    fn kit_text_length(&mut self, l: &Lent) -> usize {
        let result = kit_text_length(&l.kit());
        let (number, told) = answered(&result, |&length| vec![length], 2);
        let buffers = vec![l.own.clone(), l.parity.clone()];
        self.call("kit_text_length", &[&l.own, &l.parity], 0, Expected { number, told, buffers }, |b, _, a| {
            host::texts::kit_text_length(l.design(), b[0], b[1], a)
        });
        result.map_or(100, |length| length as usize)
    }
    /// Into a buffer of this length.
    fn write_kit(&mut self, l: &Lent, text: usize) {
        let old = self.rng.bytes(text);
        let result = write_kit(&l.kit(), text);
        let (number, told) = answered(&result, |_| vec![], 1);
        let left = result.unwrap_or(old.clone());
        let buffers = vec![l.own.clone(), l.parity.clone(), l.inverse.clone(), left];
        self.call("write_kit", &[&l.own, &l.parity, &l.inverse, &old], 0, Expected { number, told, buffers }, |b, _, a| {
            let [own, parity, inverse, text] = b else { unreachable!() };
            host::texts::write_kit(l.design(), own, parity, inverse, text, a)
        });
    }
    /// All three, the writer with a buffer of the text's length.
    fn make_and_write(&mut self, l: &Lent) {
        self.make_inverse(l);
        let text = self.kit_text_length(l);
        self.write_kit(l, text);
    }

    // The calls on texts. Buffers are lent with random bytes in them.

    fn scan_kit(&mut self, text: &[u8]) {
        let (number, told) = answered(&scan_kit(text), |d| vec![d.m, d.t, d.size], 4);
        let expected = Expected { number, told, buffers: vec![text.to_vec()] };
        self.call("scan_kit", &[text], 0, expected, |b, _, a| host::texts::scan_kit(b[0], a));
    }
    fn read_kit(&mut self, text: &[u8], own: usize, parity: usize, inverse: usize) {
        let old = [self.rng.bytes(own), self.rng.bytes(parity), self.rng.bytes(inverse)];
        let result = read_kit(text, own, parity, inverse);
        let (number, told) = answered(&result, |(d, _)| vec![d.m, d.t, d.size], 4);
        let left = result.map_or(old.to_vec(), |(_, kit)| vec![kit.own, kit.parity, kit.inverse]);
        let expected = Expected { number, told, buffers: [vec![text.to_vec()], left].concat() };
        self.call("read_kit", &[text, &old[0], &old[1], &old[2]], 0, expected, |b, _, a| {
            let [text, own, parity, inverse] = b else { unreachable!() };
            host::texts::read_kit(text, own, parity, inverse, a)
        });
    }
    fn scan_blocks(&mut self, d: (u64, u64, u64), text: &[u8]) {
        let (number, told) = answered(&scan_blocks(d.0, d.1, d.2, text), |(count, _)| vec![*count], 2);
        let expected = Expected { number, told, buffers: vec![text.to_vec()] };
        self.call("scan_blocks", &[text], 0, expected, |b, _, a| host::texts::scan_blocks(d, b[0], a));
    }
    fn read_blocks(&mut self, d: (u64, u64, u64), text: &[u8], info: usize) {
        let old = self.rng.bytes(info);
        let result = read_blocks(d.0, d.1, d.2, text, info);
        let (number, told) = answered(&result, |(count, _)| vec![*count], 2);
        let left = result.map_or(old.clone(), |(_, bits)| bits);
        let expected = Expected { number, told, buffers: vec![text.to_vec(), left] };
        self.call("read_blocks", &[text, &old], 0, expected, |b, _, a| {
            let [text, info] = b else { unreachable!() };
            host::texts::read_blocks(d, text, info, a)
        });
    }
    fn scan_frame(&mut self, d: (u64, u64, u64), text: &[u8]) {
        let (number, told) = answered(&scan_frame(d.0, d.1, d.2, text), |(count, _, _)| vec![*count], 2);
        let expected = Expected { number, told, buffers: vec![text.to_vec()] };
        self.call("scan_frame", &[text], 0, expected, |b, _, a| host::texts::scan_frame(d, b[0], a));
    }
    fn read_frame(&mut self, d: (u64, u64, u64), text: &[u8], info: usize, red: usize) {
        let old = [self.rng.bytes(info), self.rng.bytes(red)];
        let result = read_frame(d.0, d.1, d.2, text, info, red);
        let (number, told) = answered(&result, |(count, _, _)| vec![*count], 2);
        let left = result.map_or(old.to_vec(), |(_, info, red)| vec![info, red]);
        let expected = Expected { number, told, buffers: [vec![text.to_vec()], left].concat() };
        self.call("read_frame", &[text, &old[0], &old[1]], 0, expected, |b, _, a| {
            let [text, info, red] = b else { unreachable!() };
            host::texts::read_frame(d, text, info, red, a)
        });
    }
    /// A writer: `line` at `at` of a buffer of this length, or nothing where it has no room.
    fn line(&mut self, name: &str, out_len: usize, at: usize, line: String, lent: &[&[u8]], run: impl FnOnce(&mut [u8], &[&mut [u8]]) -> u64) {
        let old = self.rng.bytes(out_len);
        let mut after = old.clone();
        let end = at.checked_add(line.len()).filter(|&end| end <= out_len);
        if let Some(end) = end {
            after[at..end].copy_from_slice(line.as_bytes());
        }
        let number = end.unwrap_or(at) as u64;
        let buffers = [vec![after], lent.iter().map(|b| b.to_vec()).collect()].concat();
        let all: Vec<&[u8]> = [&old[..]].into_iter().chain(lent.iter().copied()).collect();
        self.call(&format!("{name} at {at} of {out_len}"), &all, 0, Expected { number, told: vec![], buffers }, |b, _, _| {
            let (out, lent) = b.split_first_mut().unwrap();
            run(out, lent)
        });
    }
    /// bauchleton_frame and bauchleton_mend, lent a buffer of this length.
    fn prints(&mut self, mend: bool, kit: &[u8], text: &[u8], out_len: usize) {
        let printed = if mend { mend_prints(kit, text) } else { frame_prints(kit, text) };
        let name = if mend { "library mend" } else { "library frame" };
        self.printing(name, &[kit, text], printed, out_len, |b, out| {
            (if mend { host::texts::mend } else { host::texts::frame })(b[0], b[1], out)
        });
    }
    /// bauchleton_makekit, the same.
    fn makes(&mut self, text: &[u8], out_len: usize) {
        self.printing("library makekit", &[text], makekit_prints(text), out_len, |b, out| host::texts::makekit(b[0], out));
    }
    /// What is printed, at the start of a buffer of this length; nothing where it is too short.
    fn printing(&mut self, name: &str, inputs: &[&[u8]], printed: String, out_len: usize, run: impl FnOnce(&[&mut [u8]], &mut [u8]) -> u64) {
        let old = vec![0xA5; out_len];
        let mut after = old.clone();
        let mut number = 0;
        if out_len >= OUT {
            after[..printed.len()].copy_from_slice(printed.as_bytes());
            number = printed.len() as u64;
        }
        let buffers = inputs.iter().map(|b| b.to_vec()).chain([after]).collect();
        let lent: Vec<&[u8]> = inputs.iter().copied().chain([&old[..]]).collect();
        *self.numbers.entry(refused(&printed)).or_default() += 1;
        self.call(name, &lent, 0, Expected { number, told: vec![], buffers }, |b, _, _| {
            let (out, inputs) = b.split_last_mut().unwrap();
            run(inputs, out)
        });
    }
    /// `frame` or `mend` itself, in its folder with kit.txt: standard output, and the folder afterwards.
    fn runs(&mut self, mend: bool, kit: &[u8], text: &[u8]) {
        let Some([frame, mender, _]) = &self.context.programs else { return };
        let folder = &self.context.folder.join(self.thread.to_string());
        std::fs::create_dir_all(folder).unwrap();
        std::fs::write(folder.join("kit.txt"), kit).unwrap();
        let expected = if mend { mend_prints(kit, text) } else { frame_prints(kit, text) };
        let name = if mend { "program mend" } else { "program frame" };
        if self.program(name, if mend { mender } else { frame }, folder, text, expected) {
            let left: Vec<_> = std::fs::read_dir(folder).unwrap().map(|entry| entry.unwrap().file_name()).collect();
            let untouched = left == ["kit.txt"] && std::fs::read(folder.join("kit.txt")).unwrap() == kit;
            self.check(&format!("{name}: left {left:?}, or another kit.txt"), untouched);
        }
    }
    /// `makekit` itself, in a folder without kit.txt.
    fn runs_makekit(&mut self, text: &[u8]) {
        let Some([_, _, makekit]) = &self.context.programs else { return };
        let folder = &self.context.folder.join(format!("empty-{}", self.thread));
        std::fs::create_dir_all(folder).unwrap();
        if self.program("program makekit", makekit, folder, text, makekit_prints(text)) {
            let left = std::fs::read_dir(folder).unwrap().count();
            self.check("program makekit: left files", left == 0);
        }
    }
    /// Does the program print what is expected, in this folder and with the text on standard input?
    fn program(&mut self, name: &str, path: &PathBuf, folder: &PathBuf, text: &[u8], expected: String) -> bool {
        let mut child = Command::new(path)
            .current_dir(folder)
            .stdin(Stdio::piped())
            .stdout(Stdio::piped())
            .stderr(Stdio::null())
            .spawn()
            .expect("the program starts");
        // The text fits into a pipe. A program that ends without reading it is no fault.
        drop(child.stdin.take().unwrap().write_all(text));
        let found = child.wait_with_output().unwrap().stdout;
        *self.numbers.entry(refused(&expected)).or_default() += 1;
        if found == expected.as_bytes() {
            return true;
        }
        let found = String::from_utf8_lossy(&found).chars().take(200).collect::<String>();
        let expected = expected.chars().take(200).collect::<String>();
        self.fail(format!("{name}: expected {expected:?}, found {found:?}"));
        false
    }

    // Inputs.

    /// The information of a frame, by the library's load from a random seed.
    fn information(&mut self, d: &Design, blocks: usize) -> Vec<u8> {
        let mut info = vec![0; info_len(d, blocks)];
        let refused = host::load_fill((d.m, d.t, d.size), blocks as u64, self.rng.next() as u32, &mut info, &mut [0; 2]);
        assert_eq!(refused, 0, "information of {d:?}, {blocks} blocks");
        info
    }
    /// A frame under a kit that passes: information, its redundancy.
    fn frame(&mut self, good: &Good, blocks: usize) -> Lent {
        let info = self.information(&good.d, blocks);
        let shape = Shape::new(good.d, blocks, entries(&good.kit.own), entries(&good.kit.parity));
        let red = redundancy(&shape, &good.w_matrix, &info);
        Lent::new(&good.kit, blocks, info, red)
    }
    /// The same with old redundancy of random bytes, for the encoder.
    fn to_encode(&mut self, good: &Good, blocks: usize) -> Lent {
        let info = self.information(&good.d, blocks);
        let red = self.rng.bytes(red_len(&good.d, blocks));
        Lent::new(&good.kit, blocks, info, red)
    }
    /// Turns bits of the lent frame, one in `odds`, by the library's load from a random seed.
    fn turn_bits(&mut self, l: &mut Lent, odds: u64) {
        let (d, seed, limit) = (l.design(), self.rng.next() as u32, 65_536 / odds);
        let refused = host::load_errors(d, l.blocks, seed, limit, &mut l.info, &mut l.red, &mut [0; 2]);
        assert_eq!(refused, 0, "errors in a frame of {d:?}, {} blocks", l.blocks);
    }
    /// A small kit that passes.
    fn small(&mut self) -> Arc<Good> {
        let d = self.rng.pick(&designs(60));
        self.context.kit(d)
    }
}

// ---------------------------------------------------------------- The run

mod groups;
mod original_cases;
mod tally;
mod window;

/// How many comparisons of a group held and failed, how often each rule's number was the right answer, and what the cases met.
#[derive(Default)]
struct Outcome {
    passed: u64,
    failed: u64,
    numbers: BTreeMap<u64, u64>,
    met: BTreeMap<&'static str, u64>,
}

/// Runs the cases of a group, a thread for each processor: each takes the next case that is left.
fn run_group(context: &Context, group: &'static str, run: fn(&mut Case), cases: Range<usize>) -> Outcome {
    let next = AtomicUsize::new(cases.start);
    let work = |thread: usize| {
        let mut outcome = Outcome::default();
        loop {
            let index = next.fetch_add(1, Relaxed);
            if index >= cases.end {
                return outcome;
            }
            let rng = Rng::new(&[hash(group), context.seed, index as u64]);
            let Outcome { passed, failed, numbers, met } = outcome;
            let mut case = Case { context, group, index, thread, rng, passed, failed, answer_extra: 0, numbers, met };
            run(&mut case);
            outcome = Outcome { passed: case.passed, failed: case.failed, numbers: case.numbers, met: case.met };
        }
    };
    std::thread::scope(|scope| {
        let work = &work;
        let processors = std::thread::available_parallelism().map_or(1, |n| n.get());
        let threads: Vec<_> = (0..processors).map(|thread| scope.spawn(move || work(thread))).collect();
        threads.into_iter().map(|thread| thread.join().unwrap()).fold(Outcome::default(), |mut all, outcome| {
            outcome.numbers.into_iter().for_each(|(number, count)| *all.numbers.entry(number).or_default() += count);
            outcome.met.into_iter().for_each(|(what, count)| *all.met.entry(what).or_default() += count);
            Outcome { passed: all.passed + outcome.passed, failed: all.failed + outcome.failed, ..all }
        })
    })
}

fn main() {
    let mut words: Vec<String> = std::env::args().skip(1).collect();
    let mut programs = None;
    if let Some(at) = words.iter().position(|word| word == "--programs") {
        let paths: Vec<PathBuf> = words.drain(at..at + 4).skip(1).map(|path| std::fs::canonicalize(path).unwrap()).collect();
        programs = Some(paths.try_into().unwrap());
    }
    let only = words.first().filter(|name| *name != "all");
    let seed = words.get(1).map_or(1, |word| word.parse().expect("a seed"));
    let index: Option<usize> = words.get(2).map(|word| word.parse().expect("an index"));
    let folder = std::env::temp_dir().join(format!("compare-{}", std::process::id()));
    let context = Context { seed, kits: Mutex::default(), programs, folder, printed: AtomicU64::new(0) };
    let (mut passed, mut failed) = (0, 0);
    for &(group, count, run) in groups::GROUPS {
        if only.is_some_and(|name| name != group) || group.starts_with("program-") && context.programs.is_none() {
            continue;
        }
        let start = std::time::Instant::now();
        context.printed.store(0, Relaxed);
        let cases = index.map_or(0..count(), |index| index..index + 1);
        let mut outcome = run_group(&context, group, run, cases.clone());
        if index.is_none() {
            for (what, _) in outcome.met.iter().filter(|(_, &count)| count == 0) {
                println!("FAILED {group} {seed}: no case met: {what}");
                outcome.failed += 1;
            }
        }
        let Outcome { passed: good, failed: bad, numbers, met } = outcome;
        let seconds = start.elapsed().as_secs_f64();
        let met = if met.is_empty() { String::new() } else { format!("; met {met:?}") };
        println!("{group}: {} cases, {good} passed, {bad} failed, {seconds:.1} s; numbers {numbers:?}{met}", cases.len());
        (passed, failed) = (passed + good, failed + bad);
    }
    drop(std::fs::remove_dir_all(&context.folder));
    println!("{passed} passed, {failed} failed");
    std::process::exit((failed > 0) as i32);
}

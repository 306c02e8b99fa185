//! The library's C interface: the declarations, and a safe function for each that lends slices.
//! A slice is a pointer and a length. Every function answers 0 or the number of a rule; `answer`
//! takes the place and what the call tells. The kit checker, the encoders and the decoders take a
//! `report` in its place: bytes, five numbers of eight each.

/// A shared slice as a pointer and a length.
macro_rules! lend {
    ($slice:expr) => {
        ($slice.as_ptr(), $slice.len())
    };
}

/// A mutable slice as a pointer and a length.
macro_rules! lend_mut {
    ($slice:expr) => {
        ($slice.as_mut_ptr(), $slice.len())
    };
}

type In = *const u8;
type Out = *mut u8;
type Told = *mut u64;

extern "C" {
    fn bauchleton_design(m: u64, t: u64, size: u64, a: Told, al: usize) -> u64;
    fn bauchleton_sizes(m: u64, t: u64, size: u64, blocks: u64, a: Told, al: usize) -> u64;
    fn bauchleton_order(m: u64, t: u64, size: u64, a: Told, al: usize) -> u64;
    fn bauchleton_original_sizes(m: u64, t: u64, size: u64, blocks: u64, a: Told, al: usize) -> u64;
    fn bauchleton_differences(x: In, xl: usize, y: In, yl: usize, a: Told, al: usize) -> u64;
    fn bauchleton_load_fill_buffer(seed: u32, b: Out, bl: usize, a: Told, al: usize) -> u64;
    fn bauchleton_load_errors_buffer(seed: u32, limit: u64, b: Out, bl: usize, a: Told, al: usize) -> u64;
    fn bauchleton_check_kit(
        m: u64, t: u64, size: u64, o: In, ol: usize, p: In, pl: usize, v: In, vl: usize, w: Out, wl: usize, q: Out, ql: usize,
    ) -> u64;
    fn bauchleton_make_inverse(
        m: u64, t: u64, size: u64, o: In, ol: usize, p: In, pl: usize, v: Out, vl: usize, w: Out, wl: usize, a: Told, al: usize,
    ) -> u64;
    fn bauchleton_spread_lists(m: u64, t: u64, size: u64, o: Out, ol: usize, p: Out, pl: usize, a: Told, al: usize) -> u64;
    fn bauchleton_mixed_lists(m: u64, t: u64, size: u64, seed: u32, o: Out, ol: usize, p: Out, pl: usize, a: Told, al: usize) -> u64;
    fn bauchleton_encode(
        m: u64, t: u64, size: u64, blocks: u64, o: In, ol: usize, p: In, pl: usize, v: In, vl: usize, i: In, il: usize,
        r: Out, rl: usize, w: Out, wl: usize, q: Out, ql: usize,
    ) -> u64;
    fn bauchleton_encode_batch(
        m: u64, t: u64, size: u64, blocks: u64, frames: u64, o: In, ol: usize, p: In, pl: usize, v: In, vl: usize, i: In, il: usize,
        r: Out, rl: usize, w: Out, wl: usize, q: Out, ql: usize,
    ) -> u64;
    fn bauchleton_check_words(
        m: u64, t: u64, size: u64, blocks: u64, o: In, ol: usize, p: In, pl: usize, i: In, il: usize, r: In, rl: usize,
        w: Out, wl: usize, a: Told, al: usize,
    ) -> u64;
    fn bauchleton_decode(
        m: u64, t: u64, size: u64, blocks: u64, rounds: u64, o: In, ol: usize, p: In, pl: usize, i: Out, il: usize,
        r: Out, rl: usize, w: Out, wl: usize, q: Out, ql: usize,
    ) -> u64;
    fn bauchleton_decode_window(
        m: u64, t: u64, size: u64, blocks: u64, rounds: u64, window: u64, o: In, ol: usize, p: In, pl: usize, i: Out, il: usize,
        r: Out, rl: usize, w: Out, wl: usize, q: Out, ql: usize,
    ) -> u64;
    fn bauchleton_decode_tallied(
        m: u64, t: u64, size: u64, blocks: u64, rounds: u64, o: In, ol: usize, p: In, pl: usize, i: Out, il: usize,
        r: Out, rl: usize, w: Out, wl: usize, y: Told, yl: usize, q: Out, ql: usize,
    ) -> u64;
    fn bauchleton_report(y: *const u64, yl: usize, a: Told, al: usize) -> u64;
    fn bauchleton_loopback(
        m: u64, t: u64, size: u64, blocks: u64, rounds: u64, o: In, ol: usize, p: In, pl: usize, v: In, vl: usize,
        ie: In, iel: usize, re: In, rel: usize, i: Out, il: usize, r: Out, rl: usize, w: Out, wl: usize, a: Told, al: usize,
    ) -> u64;
    fn bauchleton_show(
        m: u64, t: u64, size: u64, blocks: u64, kind: u64, number: u64, i: In, il: usize, r: In, rl: usize,
        out: Out, outl: usize, a: Told, al: usize,
    ) -> u64;
    fn bauchleton_load_fill(m: u64, t: u64, size: u64, blocks: u64, seed: u32, i: Out, il: usize, a: Told, al: usize) -> u64;
    fn bauchleton_load_errors(
        m: u64, t: u64, size: u64, blocks: u64, seed: u32, limit: u64, i: Out, il: usize, r: Out, rl: usize, a: Told, al: usize,
    ) -> u64;
    fn bauchleton_load_run(
        m: u64, t: u64, size: u64, blocks: u64, place: u64, length: u64, i: Out, il: usize, r: Out, rl: usize, a: Told, al: usize,
    ) -> u64;
}

pub fn design(m: u64, t: u64, size: u64, answer: &mut [u64]) -> u64 {
    let (a, al) = lend_mut!(answer);
    unsafe { bauchleton_design(m, t, size, a, al) }
}

pub fn sizes(m: u64, t: u64, size: u64, blocks: u64, answer: &mut [u64]) -> u64 {
    let (a, al) = lend_mut!(answer);
    unsafe { bauchleton_sizes(m, t, size, blocks, a, al) }
}

#[allow(clippy::too_many_arguments)]
pub fn check_kit(
    (m, t, size): (u64, u64, u64), own: &[u8], parity: &[u8], inverse: &[u8], work: &mut [u8], report: &mut [u8],
) -> u64 {
    let ((o, ol), (p, pl), (v, vl)) = (lend!(own), lend!(parity), lend!(inverse));
    let ((w, wl), (q, ql)) = (lend_mut!(work), lend_mut!(report));
    unsafe { bauchleton_check_kit(m, t, size, o, ol, p, pl, v, vl, w, wl, q, ql) }
}

#[allow(clippy::too_many_arguments)]
pub fn make_inverse(
    (m, t, size): (u64, u64, u64), own: &[u8], parity: &[u8], inverse: &mut [u8], work: &mut [u8], answer: &mut [u64],
) -> u64 {
    let ((o, ol), (p, pl)) = (lend!(own), lend!(parity));
    let ((v, vl), (w, wl), (a, al)) = (lend_mut!(inverse), lend_mut!(work), lend_mut!(answer));
    unsafe { bauchleton_make_inverse(m, t, size, o, ol, p, pl, v, vl, w, wl, a, al) }
}

pub fn spread_lists((m, t, size): (u64, u64, u64), own: &mut [u8], parity: &mut [u8], answer: &mut [u64]) -> u64 {
    let ((o, ol), (p, pl), (a, al)) = (lend_mut!(own), lend_mut!(parity), lend_mut!(answer));
    unsafe { bauchleton_spread_lists(m, t, size, o, ol, p, pl, a, al) }
}

pub fn mixed_lists((m, t, size): (u64, u64, u64), seed: u32, own: &mut [u8], parity: &mut [u8], answer: &mut [u64]) -> u64 {
    let ((o, ol), (p, pl), (a, al)) = (lend_mut!(own), lend_mut!(parity), lend_mut!(answer));
    unsafe { bauchleton_mixed_lists(m, t, size, seed, o, ol, p, pl, a, al) }
}

#[allow(clippy::too_many_arguments)]
pub fn encode(
    (m, t, size): (u64, u64, u64), blocks: u64, own: &[u8], parity: &[u8], inverse: &[u8], info: &[u8], red: &mut [u8],
    work: &mut [u8], report: &mut [u8],
) -> u64 {
    let ((o, ol), (p, pl), (v, vl), (i, il)) = (lend!(own), lend!(parity), lend!(inverse), lend!(info));
    let ((r, rl), (w, wl), (q, ql)) = (lend_mut!(red), lend_mut!(work), lend_mut!(report));
    unsafe { bauchleton_encode(m, t, size, blocks, o, ol, p, pl, v, vl, i, il, r, rl, w, wl, q, ql) }
}

#[allow(clippy::too_many_arguments)]
pub fn encode_batch(
    (m, t, size): (u64, u64, u64), blocks: u64, frames: u64, own: &[u8], parity: &[u8], inverse: &[u8], info: &[u8],
    red: &mut [u8], work: &mut [u8], report: &mut [u8],
) -> u64 {
    let ((o, ol), (p, pl), (v, vl), (i, il)) = (lend!(own), lend!(parity), lend!(inverse), lend!(info));
    let ((r, rl), (w, wl), (q, ql)) = (lend_mut!(red), lend_mut!(work), lend_mut!(report));
    unsafe { bauchleton_encode_batch(m, t, size, blocks, frames, o, ol, p, pl, v, vl, i, il, r, rl, w, wl, q, ql) }
}

#[allow(clippy::too_many_arguments)]
pub fn check_words(
    (m, t, size): (u64, u64, u64), blocks: u64, own: &[u8], parity: &[u8], info: &[u8], red: &[u8], work: &mut [u8],
    answer: &mut [u64],
) -> u64 {
    let ((o, ol), (p, pl), (i, il), (r, rl)) = (lend!(own), lend!(parity), lend!(info), lend!(red));
    let ((w, wl), (a, al)) = (lend_mut!(work), lend_mut!(answer));
    unsafe { bauchleton_check_words(m, t, size, blocks, o, ol, p, pl, i, il, r, rl, w, wl, a, al) }
}

#[allow(clippy::too_many_arguments)]
pub fn decode(
    (m, t, size): (u64, u64, u64), blocks: u64, rounds: u64, own: &[u8], parity: &[u8], info: &mut [u8], red: &mut [u8],
    work: &mut [u8], report: &mut [u8],
) -> u64 {
    let ((o, ol), (p, pl)) = (lend!(own), lend!(parity));
    let ((i, il), (r, rl), (w, wl), (q, ql)) = (lend_mut!(info), lend_mut!(red), lend_mut!(work), lend_mut!(report));
    unsafe { bauchleton_decode(m, t, size, blocks, rounds, o, ol, p, pl, i, il, r, rl, w, wl, q, ql) }
}

#[allow(clippy::too_many_arguments)]
pub fn decode_window(
    (m, t, size): (u64, u64, u64), blocks: u64, rounds: u64, window: u64, own: &[u8], parity: &[u8], info: &mut [u8],
    red: &mut [u8], work: &mut [u8], report: &mut [u8],
) -> u64 {
    let ((o, ol), (p, pl)) = (lend!(own), lend!(parity));
    let ((i, il), (r, rl), (w, wl), (q, ql)) = (lend_mut!(info), lend_mut!(red), lend_mut!(work), lend_mut!(report));
    unsafe { bauchleton_decode_window(m, t, size, blocks, rounds, window, o, ol, p, pl, i, il, r, rl, w, wl, q, ql) }
}

#[allow(clippy::too_many_arguments)]
pub fn decode_tallied(
    (m, t, size): (u64, u64, u64), blocks: u64, rounds: u64, own: &[u8], parity: &[u8], info: &mut [u8], red: &mut [u8],
    work: &mut [u8], tally: &mut [u64], report: &mut [u8],
) -> u64 {
    let ((o, ol), (p, pl), (y, yl)) = (lend!(own), lend!(parity), lend_mut!(tally));
    let ((i, il), (r, rl), (w, wl), (q, ql)) = (lend_mut!(info), lend_mut!(red), lend_mut!(work), lend_mut!(report));
    unsafe { bauchleton_decode_tallied(m, t, size, blocks, rounds, o, ol, p, pl, i, il, r, rl, w, wl, y, yl, q, ql) }
}

pub fn report(tally: &[u64], answer: &mut [u64]) -> u64 {
    let ((y, yl), (a, al)) = (lend!(tally), lend_mut!(answer));
    unsafe { bauchleton_report(y, yl, a, al) }
}

#[allow(clippy::too_many_arguments)]
pub fn loopback(
    (m, t, size): (u64, u64, u64), blocks: u64, rounds: u64, own: &[u8], parity: &[u8], inverse: &[u8],
    info_errors: &[u8], red_errors: &[u8], info: &mut [u8], red: &mut [u8], work: &mut [u8], answer: &mut [u64],
) -> u64 {
    let ((o, ol), (p, pl), (v, vl)) = (lend!(own), lend!(parity), lend!(inverse));
    let ((ie, iel), (re, rel)) = (lend!(info_errors), lend!(red_errors));
    let ((i, il), (r, rl), (w, wl), (a, al)) = (lend_mut!(info), lend_mut!(red), lend_mut!(work), lend_mut!(answer));
    unsafe {
        bauchleton_loopback(
            m, t, size, blocks, rounds, o, ol, p, pl, v, vl, ie, iel, re, rel, i, il, r, rl, w, wl, a, al,
        )
    }
}

#[allow(clippy::too_many_arguments)]
pub fn show(
    (m, t, size): (u64, u64, u64), blocks: u64, kind: u64, number: u64, info: &[u8], red: &[u8], out: &mut [u8],
    answer: &mut [u64],
) -> u64 {
    let ((i, il), (r, rl), (s, sl), (a, al)) = (lend!(info), lend!(red), lend_mut!(out), lend_mut!(answer));
    unsafe { bauchleton_show(m, t, size, blocks, kind, number, i, il, r, rl, s, sl, a, al) }
}

pub fn load_fill((m, t, size): (u64, u64, u64), blocks: u64, seed: u32, info: &mut [u8], answer: &mut [u64]) -> u64 {
    let ((i, il), (a, al)) = (lend_mut!(info), lend_mut!(answer));
    unsafe { bauchleton_load_fill(m, t, size, blocks, seed, i, il, a, al) }
}

pub fn load_errors(
    (m, t, size): (u64, u64, u64), blocks: u64, seed: u32, limit: u64, info: &mut [u8], red: &mut [u8], answer: &mut [u64],
) -> u64 {
    let ((i, il), (r, rl), (a, al)) = (lend_mut!(info), lend_mut!(red), lend_mut!(answer));
    unsafe { bauchleton_load_errors(m, t, size, blocks, seed, limit, i, il, r, rl, a, al) }
}

pub fn load_run(
    (m, t, size): (u64, u64, u64), blocks: u64, place: u64, length: u64, info: &mut [u8], red: &mut [u8], answer: &mut [u64],
) -> u64 {
    let ((i, il), (r, rl), (a, al)) = (lend_mut!(info), lend_mut!(red), lend_mut!(answer));
    unsafe { bauchleton_load_run(m, t, size, blocks, place, length, i, il, r, rl, a, al) }
}

pub fn order(m: u64, t: u64, size: u64, answer: &mut [u64]) -> u64 {
    let (a, al) = lend_mut!(answer);
    unsafe { bauchleton_order(m, t, size, a, al) }
}

pub fn original_sizes((m, t, size): (u64, u64, u64), blocks: u64, answer: &mut [u64]) -> u64 {
    let (a, al) = lend_mut!(answer);
    unsafe { bauchleton_original_sizes(m, t, size, blocks, a, al) }
}

pub fn differences(x: &[u8], y: &[u8], answer: &mut [u64]) -> u64 {
    let ((x, xl), (y, yl), (a, al)) = (lend!(x), lend!(y), lend_mut!(answer));
    unsafe { bauchleton_differences(x, xl, y, yl, a, al) }
}

pub fn load_fill_buffer(seed: u32, buffer: &mut [u8], answer: &mut [u64]) -> u64 {
    let ((b, bl), (a, al)) = (lend_mut!(buffer), lend_mut!(answer));
    unsafe { bauchleton_load_fill_buffer(seed, b, bl, a, al) }
}

pub fn load_errors_buffer(seed: u32, limit: u64, buffer: &mut [u8], answer: &mut [u64]) -> u64 {
    let ((b, bl), (a, al)) = (lend_mut!(buffer), lend_mut!(answer));
    unsafe { bauchleton_load_errors_buffer(seed, limit, b, bl, a, al) }
}

// ---------------------------------------------------------------- The calls on texts

pub mod texts {
    use super::{In, Out, Told};

    extern "C" {
        fn bauchleton_scan_kit(text: In, tl: usize, a: Told, al: usize) -> u64;
        fn bauchleton_read_kit(
            text: In, tl: usize, o: Out, ol: usize, p: Out, pl: usize, v: Out, vl: usize, a: Told, al: usize,
        ) -> u64;
        fn bauchleton_scan_blocks(m: u64, t: u64, size: u64, text: In, tl: usize, a: Told, al: usize) -> u64;
        fn bauchleton_read_blocks(m: u64, t: u64, size: u64, text: In, tl: usize, i: Out, il: usize, a: Told, al: usize) -> u64;
        fn bauchleton_scan_frame(m: u64, t: u64, size: u64, text: In, tl: usize, a: Told, al: usize) -> u64;
        fn bauchleton_read_frame(
            m: u64, t: u64, size: u64, text: In, tl: usize, i: Out, il: usize, r: Out, rl: usize, a: Told, al: usize,
        ) -> u64;
        fn bauchleton_kit_text_length(
            m: u64, t: u64, size: u64, o: In, ol: usize, p: In, pl: usize, a: Told, al: usize,
        ) -> u64;
        fn bauchleton_write_kit(
            m: u64, t: u64, size: u64, o: In, ol: usize, p: In, pl: usize, v: In, vl: usize, text: Out, tl: usize, a: Told, al: usize,
        ) -> u64;
        fn bauchleton_block_line(out: Out, outl: usize, at: usize, number: u64, b: In, bl: usize) -> u64;
        fn bauchleton_group_line(out: Out, outl: usize, at: usize, number: u64, o: In, ol: usize, p: In, pl: usize) -> u64;
        fn bauchleton_refusal_lines(out: Out, outl: usize, at: usize, rule: u64, place: u64) -> u64;
        fn bauchleton_count_lines(out: Out, outl: usize, at: usize, rounds: u64, turned: u64, outside: u64) -> u64;
        fn bauchleton_frame(k: In, kl: usize, text: In, tl: usize, out: Out, outl: usize) -> u64;
        fn bauchleton_mend(k: In, kl: usize, text: In, tl: usize, out: Out, outl: usize) -> u64;
        fn bauchleton_makekit(text: In, tl: usize, out: Out, outl: usize) -> u64;
    }

    pub fn scan_kit(text: &[u8], answer: &mut [u64]) -> u64 {
        let ((x, xl), (a, al)) = (lend!(text), lend_mut!(answer));
        unsafe { bauchleton_scan_kit(x, xl, a, al) }
    }

    pub fn read_kit(text: &[u8], own: &mut [u8], parity: &mut [u8], inverse: &mut [u8], answer: &mut [u64]) -> u64 {
        let ((x, xl), (a, al)) = (lend!(text), lend_mut!(answer));
        let ((o, ol), (p, pl), (v, vl)) = (lend_mut!(own), lend_mut!(parity), lend_mut!(inverse));
        unsafe { bauchleton_read_kit(x, xl, o, ol, p, pl, v, vl, a, al) }
    }

    pub fn scan_blocks((m, t, size): (u64, u64, u64), text: &[u8], answer: &mut [u64]) -> u64 {
        let ((x, xl), (a, al)) = (lend!(text), lend_mut!(answer));
        unsafe { bauchleton_scan_blocks(m, t, size, x, xl, a, al) }
    }

    pub fn read_blocks((m, t, size): (u64, u64, u64), text: &[u8], info: &mut [u8], answer: &mut [u64]) -> u64 {
        let ((x, xl), (i, il), (a, al)) = (lend!(text), lend_mut!(info), lend_mut!(answer));
        unsafe { bauchleton_read_blocks(m, t, size, x, xl, i, il, a, al) }
    }

    pub fn scan_frame((m, t, size): (u64, u64, u64), text: &[u8], answer: &mut [u64]) -> u64 {
        let ((x, xl), (a, al)) = (lend!(text), lend_mut!(answer));
        unsafe { bauchleton_scan_frame(m, t, size, x, xl, a, al) }
    }

    pub fn read_frame(
        (m, t, size): (u64, u64, u64), text: &[u8], info: &mut [u8], red: &mut [u8], answer: &mut [u64],
    ) -> u64 {
        let ((x, xl), (i, il), (r, rl), (a, al)) = (lend!(text), lend_mut!(info), lend_mut!(red), lend_mut!(answer));
        unsafe { bauchleton_read_frame(m, t, size, x, xl, i, il, r, rl, a, al) }
    }

    pub fn kit_text_length((m, t, size): (u64, u64, u64), own: &[u8], parity: &[u8], answer: &mut [u64]) -> u64 {
        let ((o, ol), (p, pl), (a, al)) = (lend!(own), lend!(parity), lend_mut!(answer));
        unsafe { bauchleton_kit_text_length(m, t, size, o, ol, p, pl, a, al) }
    }

    pub fn write_kit(
        (m, t, size): (u64, u64, u64), own: &[u8], parity: &[u8], inverse: &[u8], text: &mut [u8], answer: &mut [u64],
    ) -> u64 {
        let ((o, ol), (p, pl), (v, vl)) = (lend!(own), lend!(parity), lend!(inverse));
        let ((x, xl), (a, al)) = (lend_mut!(text), lend_mut!(answer));
        unsafe { bauchleton_write_kit(m, t, size, o, ol, p, pl, v, vl, x, xl, a, al) }
    }

    pub fn block_line(out: &mut [u8], at: usize, number: u64, bits: &[u8]) -> u64 {
        let ((s, sl), (b, bl)) = (lend_mut!(out), lend!(bits));
        unsafe { bauchleton_block_line(s, sl, at, number, b, bl) }
    }

    pub fn group_line(out: &mut [u8], at: usize, number: u64, own: &[u8], parity: &[u8]) -> u64 {
        let ((s, sl), (o, ol), (p, pl)) = (lend_mut!(out), lend!(own), lend!(parity));
        unsafe { bauchleton_group_line(s, sl, at, number, o, ol, p, pl) }
    }

    pub fn refusal_lines(out: &mut [u8], at: usize, rule: u64, place: u64) -> u64 {
        let (s, sl) = lend_mut!(out);
        unsafe { bauchleton_refusal_lines(s, sl, at, rule, place) }
    }

    pub fn count_lines(out: &mut [u8], at: usize, rounds: u64, turned: u64, outside: u64) -> u64 {
        let (s, sl) = lend_mut!(out);
        unsafe { bauchleton_count_lines(s, sl, at, rounds, turned, outside) }
    }

    pub fn frame(kit: &[u8], text: &[u8], out: &mut [u8]) -> u64 {
        let ((k, kl), (x, xl), (s, sl)) = (lend!(kit), lend!(text), lend_mut!(out));
        unsafe { bauchleton_frame(k, kl, x, xl, s, sl) }
    }

    pub fn mend(kit: &[u8], text: &[u8], out: &mut [u8]) -> u64 {
        let ((k, kl), (x, xl), (s, sl)) = (lend!(kit), lend!(text), lend_mut!(out));
        unsafe { bauchleton_mend(k, kl, x, xl, s, sl) }
    }

    pub fn makekit(text: &[u8], out: &mut [u8]) -> u64 {
        let ((x, xl), (s, sl)) = (lend!(text), lend_mut!(out));
        unsafe { bauchleton_makekit(x, xl, s, sl) }
    }
}

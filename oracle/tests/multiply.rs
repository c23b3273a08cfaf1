//! RV64M: values worked out by hand, made elsewhere, or come by in another way
//! than the oracle's; registers and modes; faults that a comparison notices.

mod common;
use common::*;
use oracle::compare::{rounds, Counts, Engine, Oracle, H_ROUNDS};
use oracle::instruction::RegisterKind::*;
use oracle::instruction::*;
use oracle::m_words;
use oracle::*;

const KINDS: [RegisterKind; 13] = [Mul, Mulh, Mulhsu, Mulhu, Div, Divu, Rem, Remu, Mulw, Divw, Divuw, Remw, Remuw];

fn m_word(kind: RegisterKind, rd: u64, rs1: u64, rs2: u64) -> u32 {
    word(Instruction::Register { kind, rd, rs1, rs2 })
}

/// x7 after a step of the word with these operands; nothing else but pc changes.
fn value(kind: RegisterKind, a: u64, b: u64) -> u64 {
    let mut machine = locked();
    (machine.x[5], machine.x[6], machine.x[7]) = (a, b, 0x77);
    let bytes = memory(64, 0, &[m_word(kind, 7, 5, 6)]);
    let (after, left) = completes(machine, &bytes);
    let mut expected = Machine { pc: 4, ..machine };
    expected.x[7] = after.x[7];
    assert_eq!(after, expected);
    assert_eq!(left, bytes);
    after.x[7]
}

fn minus(number: u64) -> u64 {
    number.wrapping_neg()
}

const LEAST: u64 = 1 << 63;
const LEAST_WORD: u64 = 0xffff_ffff_8000_0000;

#[test]
fn by_hand() {
    for (kind, a, b, result) in [
        (Mul, 7, minus(3), minus(21)),
        (Mul, 1 << 32, 1 << 32, 0),
        (Mul, 0x1_0000_0001, 0x1_0000_0001, 0x2_0000_0001),
        (Mul, LEAST, 2, 0),
        // 2^63 times 2 is 2^64; -2^63 times 2 is -2^64
        (Mulhu, LEAST, 2, 1),
        (Mulh, LEAST, 2, ALL),
        (Mulhsu, LEAST, 2, ALL),
        // the second of MULHSU is unsigned, the first signed
        (Mulhsu, 2, LEAST, 1),
        (Mulhsu, 1, ALL, 0),
        (Mulhsu, ALL, 1, ALL),
        (Mulhsu, ALL, ALL, ALL),
        // (2^64 - 1)^2 is 2^128 - 2^65 + 1
        (Mulhu, ALL, ALL, ALL - 1),
        (Mul, ALL, ALL, 1),
        (Mulh, ALL, ALL, 0),
        (Mulh, LEAST, LEAST, 1 << 62),
        (Mulh, LEAST - 1, LEAST - 1, 0x3fff_ffff_ffff_ffff),
        // towards zero, the remainder with the dividend's sign
        (Div, 7, 2, 3),
        (Rem, 7, 2, 1),
        (Div, minus(7), 2, minus(3)),
        (Rem, minus(7), 2, minus(1)),
        (Div, 7, minus(2), minus(3)),
        (Rem, 7, minus(2), 1),
        (Div, minus(7), minus(2), 3),
        (Rem, minus(7), minus(2), minus(1)),
        (Div, minus(1), 2, 0),
        (Rem, minus(1), 2, minus(1)),
        (Divu, ALL, 10, 1844674407370955161),
        (Remu, ALL, 10, 5),
        (Divu, LEAST, ALL, 0),
        (Remu, LEAST, ALL, LEAST),
        (Mulw, 0x1_0001, 0x8000, LEAST_WORD + 0x8000),
        (Mulw, 0xffff_ffff_0000_0003, 0x7777_7777_0000_0005, 15),
        (Divw, 0x5_ffff_fff9, 0x6_0000_0002, minus(3)),
        (Remw, 0x5_ffff_fff9, 0x6_0000_0002, minus(1)),
        (Divuw, 0xffff_ffff, 1, ALL),
        (Divuw, ALL, 2, 0x7fff_ffff),
        (Remuw, 0xffff_fffe, ALL, ALL - 1),
        (Remuw, ALL, 0x8000_0000, 0x7fff_ffff),
    ] {
        assert_eq!(value(kind, a, b), result, "{kind:?} of {a:x}, {b:x}");
    }
}

/// The manual's table of division by zero and overflow, for 64 bits and 32.
#[test]
fn the_manuals_table() {
    for x in [0, 1, 5, minus(5), LEAST, LEAST - 1, ALL, 1 << 32] {
        assert_eq!([Divu, Remu, Div, Rem].map(|kind| value(kind, x, 0)), [ALL, x, ALL, x]);
    }
    assert_eq!([Div, Rem].map(|kind| value(kind, LEAST, ALL)), [LEAST, 0]);
    // A word form has the same of the low halves, sign extended, whatever the upper ones are.
    for (x, extended) in [(0, 0), (5, 5), (0x7fff_ffff, 0x7fff_ffff), (0x8000_0000, LEAST_WORD), (0xffff_fffb, minus(5)), (0xffff_ffff, ALL)] {
        for (above, over) in [(0, 0), (ALL << 32, 0), (0, 1 << 32), (0x1234 << 40, ALL << 32), (1 << 63, 1 << 63)] {
            let answers = [Divuw, Remuw, Divw, Remw].map(|kind| value(kind, x | above, over));
            assert_eq!(answers, [ALL, extended, ALL, extended], "{x:x} below {above:x}, 0 below {over:x}");
            assert_eq!([Divw, Remw].map(|kind| value(kind, 0x8000_0000 | above, 0xffff_ffff | over)), [LEAST_WORD, 0]);
        }
    }
}

/// Operands and the results of the 13, made by Python's whole numbers.
#[rustfmt::skip]
const MADE: [(u64, u64, [u64; 13]); 18] = [
    (0xaf3a592d7ded5296, 0xd5bb4e06053d2ee6, [0x720a932d63cd26c4, 0xd561a0660f6e8c4, 0xbc907333dee43b5a, 0x924bc139e4216a40, 1, 0, 0xd97f0b2778b023b0, 0xaf3a592d7ded5296, 0x63cd26c4, 0x18, 0x18, 0x30ed06, 0x30ed06]),
    (0x110b13338b9448, 0xef641d67d5b, [0xa4d74482b634dd98, 0xff00135c, 0xff00135c, 0xff00135c, 0x123, 0x123, 0x9265cbb15d7, 0x9265cbb15d7, 0xffffffffb634dd98, 0, 0, 0x338b9448, 0x338b9448]),
    (0xff7f8b4602f84886, 0xa6fa69956d01c590, [0x7f921d8211fde960, 0x2cab626a78b158, 0xffac36a86d70f9de, 0xa6a6a03dda72bf6e, 0, 1, 0xff7f8b4602f84886, 0x588521b095f682f6, 0x11fde960, 0, 0, 0x2f84886, 0x2f84886]),
    (0x7c32be57755c9a4b, 0x3bb49d0540241dc2, [0x5ad2d0a1e0336bd6, 0x1cf751b9a8626c83, 0x1cf751b9a8626c83, 0x1cf751b9a8626c83, 2, 2, 0x4c9844cf5145ec7, 0x4c9844cf5145ec7, 0xffffffffe0336bd6, 1, 1, 0x35387c89, 0x35387c89]),
    (0x3d020b03, 0xffff943aa3d055c4, [0x1cdb2dca3ea86d4c, 0xffffffffffffe651, 0x3d01f154, 0x3d01f154, 0, 0, 0x3d020b03, 0x3d020b03, 0x3ea86d4c, 0, 0, 0x3d020b03, 0x3d020b03]),
    (0xd6d1d2f591e8b0c1, 0xffff2444f70afc5b, [0xdf8805d10a3ed09b, 0x235896b3adfb, 0xd6d1f64e289c5ebc, 0xd6d11a931fa75b17, 0x2ffa, 0, 0xffffbe414cd98ae3, 0xd6d1d2f591e8b0c1, 0xa3ed09b, 0xc, 0, 0xfffffffffd64dc7d, 0xffffffff91e8b0c1]),
    (0x3e5cf9bd8a27101d, 0xfffffffffffff4a7, [0x52f2082b4aba26eb, 0xfffffffffffffd3c, 0x3e5cf9bd8a270d59, 0x3e5cf9bd8a270d59, 0xfffa811a8c55777e, 0, 0x4eb, 0x3e5cf9bd8a27101d, 0x4aba26eb, 0xa629a, 0, 0xfffffffffffff5a7, 0xffffffff8a27101d]),
    (0x5aead8ba, 0xd03, [0x49efdc1fc2e, 0, 0, 0, 0x6fcc2, 0x6fcc2, 0x874, 0x874, 0xfffffffffdc1fc2e, 0x6fcc2, 0x6fcc2, 0x874, 0x874]),
    (0xaf796a36ce497105, 0x682f73fe7b6cc085, [0xd087fb6f56077799, 0xdf3a65f44238d723, 0xdf3a65f44238d723, 0x4769d9f2bda597a8, 0, 1, 0xaf796a36ce497105, 0x4749f63852dcb080, 0x56077799, 0, 1, 0xffffffffce497105, 0x52dcb080]),
    (0xff3cccbc9eaf9b2b, 0xbb0, [0x1698dc7ea4658690, 0xfffffffffffffff7, 0xfffffffffffffff7, 0xba7, 0xffffef4c62471322, 0x15d6a81b172909, 0xfffffffffffffdcb, 0x1fb, 0xffffffffa4658690, 0xfffffffffff7ac76, 0xd93d1, 0xfffffffffffff80b, 0x7b]),
    (0xb339ba609c3733e5, 0x17a0c775f, [0xbb3fe7ae3257b4fb, 0xffffffff8e9f801a, 0xffffffff8e9f801a, 0x108abf779, 0xffffffffcc02e288, 0x795d5649, 0xffffffff2177eb6d, 0x15a0c3fce, 0x3257b4fb, 0, 1, 0xffffffff9c3733e5, 0x222abc86]),
    (0x36c7629d275d2a, 0x5d30db2e67cb, [0x2a0b6c13203ec64e, 0x13f0e31c14, 0x13f0e31c14, 0x13f0e31c14, 0x96, 0x96, 0x2cc22ff68c38, 0x2cc22ff68c38, 0x203ec64e, 2, 0, 0xffffffffe6ca8d94, 0xffffffff9d275d2a]),
    (0x50d655f698f, 0xc913c964d02721e0, [0x47d69ff344e0cc20, 0xfffffeea83308856, 0x3f7e88ff1e5, 0x3f7e88ff1e5, 0, 0, 0x50d655f698f, 0x50d655f698f, 0x44e0cc20, 0xfffffffffffffffe, 0, 0x5adad4f, 0x655f698f]),
    (0x7a1a1435267e1ba2, 0x68b525379c5c31f7, [0x4c36b39ced2eab4e, 0x31f0fe662c5155e3, 0x31f0fe662c5155e3, 0x31f0fe662c5155e3, 1, 1, 0x1164eefd8a21e9ab, 0x1164eefd8a21e9ab, 0xffffffffed2eab4e, 0, 0, 0x267e1ba2, 0x267e1ba2]),
    (0xffffffff00000000, 0xffffffff, [0x100000000, 0xffffffffffffffff, 0xffffffffffffffff, 0xfffffffe, 0xffffffffffffffff, 0x100000000, 0xffffffffffffffff, 0, 0, 0, 0, 0, 0]),
    (0x7fffffffffffffff, 0x7fffffffffffffff, [1, 0x3fffffffffffffff, 0x3fffffffffffffff, 0x3fffffffffffffff, 1, 1, 0, 0, 1, 1, 1, 0, 0]),
    (0x8000000000000000, 3, [0x8000000000000000, 0xfffffffffffffffe, 0xfffffffffffffffe, 1, 0xd555555555555556, 0x2aaaaaaaaaaaaaaa, 0xfffffffffffffffe, 2, 0, 0, 0, 0, 0]),
    (0x8000000080000000, 0xffffffff80000000, [0xc000000000000000, 0x3fffffff, 0x80000000bfffffff, 0x800000003fffffff, 0xffffffff, 0, 0, 0x8000000080000000, 0, 1, 1, 0, 0]),
];

#[test]
fn made_elsewhere() {
    for (a, b, results) in MADE {
        assert_eq!(KINDS.map(|kind| value(kind, a, b)), results, "{a:x}, {b:x}");
    }
}

/// Small numbers: products by adding up, quotients by counting subtractions.
#[test]
fn small_numbers() {
    for a in -24i64..=24 {
        for b in -24i64..=24 {
            let mut product = 0;
            (0..b.abs()).for_each(|_| product += if b < 0 { -a } else { a });
            let (mut count, mut rest) = (0, a.abs());
            while b != 0 && rest >= b.abs() {
                (count, rest) = (count + 1, rest - b.abs());
            }
            let quotient = if b == 0 { -1 } else if (a < 0) == (b < 0) { count } else { -count };
            let remainder = if a < 0 { -rest } else { rest };
            let high = if product < 0 { -1 } else { 0 };
            let signed = [(Mul, product), (Mulh, high), (Div, quotient), (Rem, remainder), (Mulw, product), (Divw, quotient), (Remw, remainder)];
            let unsigned = [(Mulhsu, high), (Mulhu, 0), (Divu, quotient), (Remu, remainder), (Divuw, quotient), (Remuw, remainder)];
            let alike = if a >= 0 && b >= 0 { unsigned.as_slice() } else { &[] };
            for (kind, result) in signed.iter().chain(alike) {
                assert_eq!(value(*kind, a as u64, b as u64), *result as u64, "{kind:?} of {a}, {b}");
            }
        }
    }
}

/// Both halves of the unsigned product, by digits of 16 bits and carries.
fn by_digits(a: u64, b: u64) -> (u64, u64) {
    let digit = |value: u64, n: usize| value >> (16 * n) & 0xffff;
    let mut places = [0u64; 8];
    for i in 0..4 {
        for j in 0..4 {
            let part = digit(a, i) * digit(b, j);
            places[i + j] += part & 0xffff;
            places[i + j + 1] += part >> 16;
        }
    }
    for n in 0..7 {
        places[n + 1] += places[n] >> 16;
        places[n] &= 0xffff;
    }
    let half = |from: usize| (0..4).fold(0, |sum, n| sum + (places[from + n] << (16 * n)));
    (half(4), half(0))
}

/// The unsigned quotient and remainder, bit by bit. The divisor is not 0.
fn by_bits(a: u64, b: u64) -> (u64, u64) {
    let (mut quotient, mut rest) = (0u64, 0u64);
    for place in (0..64).rev() {
        let over = rest >> 63 == 1;
        rest = rest << 1 | a >> place & 1;
        if over || rest >= b {
            rest = rest.wrapping_sub(b);
            quotient |= 1 << place;
        }
    }
    (quotient, rest)
}

/// Edges of 64 and 32 bits, and numbers between them.
fn edges() -> Vec<u64> {
    let mut all = vec![0, 3, 10, 0x5555_5555_5555_5555, 0x0123_4567_89ab_cdef, 0xdead_beef_0000_0000, 0xffff_0000_ffff_0001];
    for place in [0, 1, 15, 16, 30, 31, 32, 33, 47, 62, 63] {
        all.extend([1u64 << place, (1u64 << place).wrapping_sub(1), minus(1 << place), (1u64 << place) + 1]);
    }
    all
}

#[test]
fn products_by_digits() {
    for a in edges() {
        for b in edges() {
            let (high, low) = by_digits(a, b);
            // A number below 0 is read 2^64 too large: the high half is too large by the other.
            let mixed = high.wrapping_sub(if a >> 63 == 1 { b } else { 0 });
            let signed = mixed.wrapping_sub(if b >> 63 == 1 { a } else { 0 });
            assert_eq!([Mul, Mulh, Mulhsu, Mulhu].map(|kind| value(kind, a, b)), [low, signed, mixed, high], "{a:x}, {b:x}");
            assert_eq!(value(Mulw, a, b), low as i32 as u64, "{a:x}, {b:x}");
        }
    }
}

/// Quotient and remainder by magnitudes and signs, from `by_bits`.
fn by_magnitudes(a: u64, b: u64) -> (u64, u64) {
    let (below, over) = (a >> 63 == 1, b >> 63 == 1);
    let (quotient, rest) = by_bits(if below { minus(a) } else { a }, if over { minus(b) } else { b });
    (if below == over { quotient } else { minus(quotient) }, if below { minus(rest) } else { rest })
}

#[test]
fn quotients_by_bits() {
    for a in edges() {
        for b in edges() {
            if b != 0 {
                let (quotient, rest) = by_bits(a, b);
                assert_eq!((value(Divu, a, b), value(Remu, a, b)), (quotient, rest), "{a:x}, {b:x}");
                let (quotient, rest) = by_magnitudes(a, b);
                assert_eq!((value(Div, a, b), value(Rem, a, b)), (quotient, rest), "{a:x}, {b:x}");
            }
            if b as u32 != 0 {
                let extended = |(quotient, rest): (u64, u64)| (quotient as i32 as u64, rest as i32 as u64);
                let (quotient, rest) = extended(by_bits(a as u32 as u64, b as u32 as u64));
                assert_eq!((value(Divuw, a, b), value(Remuw, a, b)), (quotient, rest), "{a:x}, {b:x}");
                let (quotient, rest) = extended(by_magnitudes(a as i32 as u64, b as i32 as u64));
                assert_eq!((value(Divw, a, b), value(Remw, a, b)), (quotient, rest), "{a:x}, {b:x}");
            }
        }
    }
}

/// Divisor times quotient and remainder make the dividend; the remainder is
/// the smaller and has the dividend's sign.
#[test]
fn parts_make_the_whole() {
    for a in edges() {
        for b in edges() {
            for (quotient, rest) in [(Div, Rem), (Divu, Remu)] {
                let (q, r) = (value(quotient, a, b), value(rest, a, b));
                assert_eq!(value(Mul, q, b).wrapping_add(r), a, "{quotient:?} of {a:x}, {b:x}");
                assert!(b == 0 || rest == Rem || r < b, "{a:x}, {b:x}");
                let size = |value: u64| (value as i64).unsigned_abs();
                assert!(b == 0 || rest == Remu || size(r) < size(b) && (r == 0 || r >> 63 == a >> 63), "{a:x}, {b:x}");
            }
        }
    }
}

/// A word form has nothing of the upper halves, and is the 64-bit form of the
/// words, extended as it reads them, but for its own overflow and zeros.
#[test]
fn word_forms() {
    for a in edges() {
        for b in edges() {
            for (kind, long, signed) in [(Mulw, Mul, true), (Divw, Div, true), (Remw, Rem, true), (Divuw, Divu, false), (Remuw, Remu, false)] {
                let clean = value(kind, a as u32 as u64, b as u32 as u64);
                for (above, over) in [(ALL << 32, 0), (0, ALL << 32), (0xdead_beef << 32, 0x0bad_cafe << 32)] {
                    assert_eq!(value(kind, a as u32 as u64 | above, b as u32 as u64 | over), clean, "{kind:?} of {a:x}, {b:x}");
                }
                let extended = |value: u64| if signed { value as i32 as u64 } else { value as u32 as u64 };
                assert_eq!(clean, value(long, extended(a), extended(b)) as i32 as u64, "{kind:?} of {a:x}, {b:x}");
            }
        }
    }
}

/// Every register in each place, x0 among them, in each mode.
#[test]
fn registers() {
    for kind in KINDS {
        for (rd, rs1, rs2) in [(0, 5, 6), (5, 5, 6), (6, 5, 6), (5, 5, 5), (31, 30, 29), (1, 0, 6), (1, 6, 0), (0, 0, 0), (7, 31, 31)] {
            for base in [outside(), inside(), locked()] {
                let mut machine = base;
                (1..32).for_each(|n| machine.x[n] = minus(n as u64 * 0x1_0000_0007));
                let bytes = memory(64, 0, &[m_word(kind, rd, rs1, rs2)]);
                let mut expected = Machine { pc: 4, ..machine };
                expected.set(rd, value(kind, machine.get(rs1), machine.get(rs2)));
                assert_eq!(completes(machine, &bytes), (expected, bytes), "{kind:?} {rd} {rs1} {rs2}");
            }
        }
    }
}

/// An oracle with a fault: it says what a word gives instead.
struct Faulty(fn(RegisterKind, u64, u64) -> Option<u64>);

impl Engine for Faulty {
    fn title(&self) -> String {
        "faulty".to_string()
    }
    fn decode_encode(&self, _: u32) -> Option<(u64, u32)> {
        None
    }
    fn step(&self, machine: &mut Machine, memory: &mut [u8]) -> Option<(u64, u64)> {
        let before = *machine;
        let answer = step(machine, memory);
        let code = memory.get(before.pc as usize..).and_then(|bytes| bytes.first_chunk::<4>());
        if let (0, Some(Instruction::Register { kind, rd, rs1, rs2 })) = (answer.0, code.and_then(|c| decode(u32::from_le_bytes(*c)))) {
            if let Some(wrong) = self.0(kind, before.get(rs1), before.get(rs2)) {
                machine.set(rd, wrong);
            }
        }
        Some(answer)
    }
    fn run(&self, _: &mut Machine, _: &mut [u8], _: u64) -> Option<(u64, u64, u64)> {
        None
    }
    fn resume(&self, _: &mut Machine, _: u64) -> Option<u64> {
        None
    }
    fn respond(&self, _: &[u8]) -> Option<Vec<u8>> {
        None
    }
}

#[test]
fn faults_are_seen() {
    let faults: [fn(RegisterKind, u64, u64) -> Option<u64>; 20] = [
        |k, a, b| (k == Mulh).then(|| value(Mulhsu, a, b)),
        |k, a, b| (k == Mulhsu).then(|| value(Mulhsu, b, a)),
        |k, a, b| (k == Mulhsu).then(|| value(Mulh, a, b)),
        |k, a, b| (k == Mulhu).then(|| value(Mulhsu, a, b)),
        // the carry of the middle products lost
        |k, a, b| (k == Mulhu).then(|| (a >> 32) * (b >> 32) + ((a >> 32) * (b & 0xffff_ffff) >> 32) + ((a & 0xffff_ffff) * (b >> 32) >> 32)),
        |k, a, b| (k == Mulw).then(|| value(Mul, a, b)),
        |k, a, b| (k == Mulw).then(|| value(Mul, a, b) as u32 as u64),
        |k, a, b| (k == Div && b == 0).then(|| if a >> 63 == 1 { 1 } else { ALL }),
        |k, a, b| (k == Div && b == ALL && a == LEAST).then_some(ALL),
        |k, a, b| (k == Rem && b == ALL && a == LEAST).then_some(LEAST),
        // downward instead of towards zero
        |k, a, b| (k == Div && b != 0 && b != ALL).then(|| (a as i64 as i128).div_euclid(b as i64 as i128) as u64),
        |k, a, b| (k == Rem && b != 0 && b != ALL).then(|| (a as i64).rem_euclid(b as i64) as u64),
        |k, _, b| (k == Remu && b == 0).then_some(0),
        |k, a, b| (k == Divw).then(|| value(Div, a, b) as i32 as u64),
        |k, a, b| (k == Divuw && b as u32 == 0).then(|| value(Divuw, a, b) as u32 as u64),
        |k, a, b| (k == Divuw).then(|| value(Divuw, a, b) as u32 as u64),
        |k, a, b| (k == Remuw && b as u32 == 0).then(|| a as u32 as u64),
        |k, a, b| (k == Remuw && b as u32 == 0).then_some(a),
        |k, a, b| (k == Remw && b as u32 == 0).then_some(a),
        |k, a, b| (k == Divw && a as u32 == 1 << 31 && b as u32 == ALL as u32).then_some(0x8000_0000),
    ];
    for (n, fault) in faults.into_iter().enumerate() {
        let mut counts = Counts::default();
        rounds(&Oracle, &Faulty(fault), 5, 2, &mut counts);
        assert!(counts.differing > 0, "fault {n}");
    }
}

/// The fewest rounds that ask for it meet every class of operands, whatever the seed.
#[test]
fn every_class_of_operands_is_met() {
    for seed in 0..10 {
        let mut counts = Counts::default();
        rounds(&Oracle, &Oracle, 100 + seed, H_ROUNDS, &mut counts);
        assert_eq!(m_words::unmet(&counts.m_words), Vec::<String>::new());
    }
    // Each is asked for: 15 of all words, 11 of those that divide, 3 of products, 3 of high halves, 4 of word forms, 2 of those that divide.
    assert_eq!(m_words::unmet(&Default::default()).len(), 15 * 13 + 11 * 8 + 3 * 5 + 3 * 3 + 4 * 5 + 2 * 4);
}

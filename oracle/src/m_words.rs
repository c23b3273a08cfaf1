//! RV64M words: operands aimed at their edges, and the classes of operands
//! that a comparison has to meet.

use std::collections::BTreeMap;

use crate::instruction::{encode, m_kind, name, Instruction, RegisterKind, BASE_ROWS, M_WORDS, REGISTER_TABLE};
use crate::machine::{Machine, Region};
use crate::numbers::{power, signed, word_extended};
use crate::step::register_value;
use crate::supply::Supply;

const ALL: u64 = u64::MAX;

/// What the operands of an RV64M word are aimed at, over its width.
#[derive(Clone, Copy, Debug, PartialEq, Eq)]
pub enum Pair {
    DivisorZero,
    BothZero,
    /// The most negative number and -1.
    Overflow,
    /// Below 0 or not, each; the second does not divide the first.
    Uneven(bool, bool),
    /// The second divides the first, which is below 0 or not.
    Even(bool),
    Equal,
    /// The second is 1.
    One,
    /// The second is -1.
    MinusOne,
    /// The first is the smaller, both above 0.
    Smaller,
    /// Each at an edge.
    Edges,
    /// Any numbers of the whole width.
    Wide,
    /// The second has zeros in its low 32 bits only.
    LowZeros,
    /// rs1 is x0.
    FirstX0,
    /// rs2 is x0.
    SecondX0,
    /// One register for rs1 and rs2.
    Twice,
    /// One register for all three.
    Thrice,
}

pub const PAIRS: [Pair; 20] = [
    Pair::DivisorZero,
    Pair::BothZero,
    Pair::Overflow,
    Pair::Uneven(false, false),
    Pair::Uneven(true, false),
    Pair::Uneven(false, true),
    Pair::Uneven(true, true),
    Pair::Even(false),
    Pair::Even(true),
    Pair::Equal,
    Pair::One,
    Pair::MinusOne,
    Pair::Smaller,
    Pair::Edges,
    Pair::Wide,
    Pair::LowZeros,
    Pair::FirstX0,
    Pair::SecondX0,
    Pair::Twice,
    Pair::Thrice,
];

impl Supply {
    /// A number at an edge of a width.
    fn operand(&mut self, width: u32) -> u64 {
        let (all, top) = (ALL >> (64 - width), 1u64 << (width - 1));
        let edges = [0, 1, 2, 3, top - 1, top, top + 1, 0x7fff_ffff, 0x8000_0000, 0xffff_ffff, 1 << 32, (1 << 32) + 1];
        let edge = if self.once_in(2) { self.pick(&edges) } else { self.edge() };
        let negated = if self.once_in(2) { edge.wrapping_neg() } else { edge };
        negated & all
    }

    /// A number of 1 to `bits` bits, at least `least`.
    fn magnitude(&mut self, bits: u32, least: u64) -> u64 {
        (self.next() >> (63 - self.below(bits as u64))).max(least)
    }

    /// Two numbers of a width that are as the aim says.
    fn pair(&mut self, aim: Pair, width: u32) -> (u64, u64) {
        let (all, top) = (ALL >> (64 - width), 1u64 << (width - 1));
        let (first, second) = (self.operand(width), self.operand(width));
        let divisor = self.magnitude(width / 2, 3);
        let factor = self.magnitude(width / 2 - 2, 2);
        let short = 1 + self.below(divisor - 1);
        let sign = |below: bool, value: u64| if below { value.wrapping_neg() & all } else { value };
        match aim {
            Pair::DivisorZero => (first.max(1), 0),
            Pair::BothZero => (0, 0),
            Pair::Overflow => (top, all),
            Pair::Uneven(a, b) => (sign(a, divisor * factor + short), sign(b, divisor)),
            Pair::Even(below) => (sign(below, divisor * factor), divisor),
            Pair::Equal => (first.max(1), first.max(1)),
            Pair::One => (first, 1),
            Pair::MinusOne => (first, all),
            Pair::Smaller => (short, divisor),
            Pair::Wide => (self.next() & all, self.next() & all),
            _ => (first, second),
        }
    }

    /// A word form's operand: its upper half is the sign's, zeros or anything.
    fn dirtied(&mut self, value: u64, width: u32) -> u64 {
        match (width, self.below(4)) {
            (64, _) | (_, 0) => value,
            (_, 1) => word_extended(value),
            _ => value | self.next() << 32,
        }
    }

    /// A machine about to make the n-th RV64M word, aimed so. The turn says
    /// which registers are one: rd is rs1, rs2, x0 or another.
    pub fn aimed_m_word(&mut self, aim: Pair, n: usize, turn: usize, memory: &mut [u8]) -> Machine {
        let mut machine = self.well_formed_machine(memory.len());
        machine.mode = self.below(2);
        machine.pc = self.below(memory.len() as u64 / 4) * 4;
        machine.regions[2] = Region { base: 0, bound: ALL << 16, permission: 4 };
        self.unrefused(&mut machine);
        let kind = m_kind(n);
        let (a, b) = self.pair(aim, width(kind));
        let (a, mut b) = (self.dirtied(a, width(kind)), self.dirtied(b, width(kind)));
        if aim == Pair::LowZeros {
            b = self.next().max(1) << 32;
        }
        let one = 1 + self.below(31);
        let other = 1 + (one + self.below(30)) % 31;
        let (rs1, rs2) = match aim {
            Pair::FirstX0 => (0, one),
            Pair::SecondX0 => (one, 0),
            Pair::Twice | Pair::Thrice => (one, one),
            _ => (one, other),
        };
        let rd = match turn % 4 {
            _ if aim == Pair::Thrice => one,
            0 => rs1,
            1 => rs2,
            2 => 0,
            _ => self.below(32),
        };
        machine.set(rs2, b);
        machine.set(rs1, a);
        let word = encode(&Instruction::Register { kind, rd, rs1, rs2 }).expect("in range");
        let at = machine.pc as usize;
        memory[at..at + 4].copy_from_slice(&word.to_le_bytes());
        machine
    }
}

fn width(kind: RegisterKind) -> u32 {
    use RegisterKind::*;
    if matches!(kind, Mulw | Divw | Divuw | Remw | Remuw) { 32 } else { 64 }
}

fn product(kind: RegisterKind) -> bool {
    use RegisterKind::*;
    matches!(kind, Mul | Mulh | Mulhsu | Mulhu | Mulw)
}

fn high_half(kind: RegisterKind) -> bool {
    use RegisterKind::*;
    matches!(kind, Mulh | Mulhsu | Mulhu)
}

fn divides(kind: RegisterKind) -> bool {
    !product(kind)
}

fn divides_words(kind: RegisterKind) -> bool {
    divides(kind) && width(kind) == 32
}

fn word_form(kind: RegisterKind) -> bool {
    width(kind) == 32
}

fn any(_: RegisterKind) -> bool {
    true
}

/// The 64-bit kind that a word form is the short form of.
fn long_form(kind: RegisterKind) -> RegisterKind {
    use RegisterKind::*;
    match kind {
        Mulw => Mul,
        Divw => Div,
        Divuw => Divu,
        Remw => Rem,
        Remuw => Remu,
        other => other,
    }
}

/// An RV64M word with its operands: the registers' values, and the numbers
/// that the word reads there.
pub struct MWord {
    kind: RegisterKind,
    registers: (u64, u64, u64),
    a: u64,
    b: u64,
    x: i128,
    y: i128,
}

impl MWord {
    /// The word and its place among the thirteen.
    pub fn of(machine: &Machine, instruction: &Instruction) -> Option<(usize, MWord)> {
        use RegisterKind::*;
        let Instruction::Register { kind, rd, rs1, rs2 } = *instruction else { return None };
        let n = REGISTER_TABLE[BASE_ROWS..].iter().position(|row| row.0 == kind)?;
        let (a, b) = (machine.get(rs1), machine.get(rs2));
        let unsigned = |value: u64| (value as u128 % power(width(kind))) as i128;
        let x = if matches!(kind, Mulhu | Divu | Remu | Divuw | Remuw) { unsigned(a) } else { signed(a, width(kind)) };
        let y = if matches!(kind, Mulhu | Mulhsu | Divu | Remu | Divuw | Remuw) { unsigned(b) } else { signed(b, width(kind)) };
        Some((n, MWord { kind, registers: (rd, rs1, rs2), a, b, x, y }))
    }

    fn top(&self, value: u64) -> bool {
        signed(value, width(self.kind)) < 0
    }

    fn tops(&self, a: bool, b: bool) -> bool {
        self.top(self.a) == a && self.top(self.b) == b
    }

    /// Not exact, with top bits so.
    fn uneven(&self, a: bool, b: bool) -> bool {
        self.y != 0 && self.x % self.y != 0 && self.tops(a, b)
    }

    fn quotient_past_one(&self) -> bool {
        self.y != 0 && (self.x / self.y).abs() > 1
    }

    /// The high half of the product; one of MULHU may have its top bit set.
    fn high(&self) -> i128 {
        if self.kind == RegisterKind::Mulhu {
            return (self.x as u128 * self.y as u128 / power(64)) as i128;
        }
        (self.x * self.y).div_euclid(power(width(self.kind)) as i128)
    }

    /// Do the two middle products of halves carry into the high half?
    fn carries(&self) -> bool {
        let halves = |value: u64| (value >> 32, value & 0xffff_ffff);
        let ((ah, al), (bh, bl)) = (halves(self.a), halves(self.b));
        (al * bl >> 32) + (ah * bl & 0xffff_ffff) + (al * bh & 0xffff_ffff) >> 32 != 0
    }

    /// Would MULH, MULHSU and MULHU all differ?
    fn reading_decides(&self) -> bool {
        use RegisterKind::*;
        let [h, hsu, hu] = [Mulh, Mulhsu, Mulhu].map(|kind| register_value(kind, self.a, self.b));
        h != hsu && hsu != hu && h != hu
    }

    /// Does the 64-bit form give another low half?
    fn width_decides(&self) -> bool {
        word_extended(register_value(long_form(self.kind), self.a, self.b)) != register_value(self.kind, self.a, self.b)
    }

    fn dirty(value: u64) -> bool {
        value != word_extended(value)
    }
}

/// What the operands of an RV64M word can be: the name, the kinds that can
/// meet it, and the test. A word may be of several.
type MClass = (&'static str, fn(RegisterKind) -> bool, fn(&MWord) -> bool);

pub const M_CLASSES: [MClass; 38] = [
    ("divisor 0, dividend not", divides, |m| m.y == 0 && m.x != 0),
    ("divisor 0, dividend's top bit set", divides, |m| m.y == 0 && m.top(m.a)),
    ("0 divided by 0", divides, |m| m.y == 0 && m.x == 0),
    ("a factor 0", product, |m| m.x == 0 || m.y == 0),
    ("most negative number and -1", any, |m| {
        signed(m.a, width(m.kind)) == -(power(width(m.kind) - 1) as i128) && signed(m.b, width(m.kind)) == -1
    }),
    ("top bits clear and clear", any, |m| m.tops(false, false)),
    ("top bits set and clear", any, |m| m.tops(true, false)),
    ("top bits clear and set", any, |m| m.tops(false, true)),
    ("top bits set and set", any, |m| m.tops(true, true)),
    ("remainder not 0, top bits clear and clear", divides, |m| m.uneven(false, false)),
    ("remainder not 0, top bits set and clear", divides, |m| m.uneven(true, false)),
    ("remainder not 0, top bits clear and set", divides, |m| m.uneven(false, true)),
    ("remainder not 0, top bits set and set", divides, |m| m.uneven(true, true)),
    ("remainder not 0, quotient past 1", divides, |m| m.quotient_past_one() && m.x % m.y != 0),
    ("remainder 0, quotient past 1", divides, |m| m.quotient_past_one() && m.x % m.y == 0),
    ("dividend the smaller, not 0", divides, |m| m.x != 0 && m.x.abs() < m.y.abs()),
    ("operands equal, not 0", any, |m| m.x == m.y && m.x != 0),
    ("second operand 1", any, |m| m.y == 1),
    ("second operand of ones", any, |m| signed(m.b, width(m.kind)) == -1),
    ("high half not 0", product, |m| m.high() != 0),
    ("high half 0, product not", product, |m| m.high() == 0 && m.x * m.y != 0),
    ("signed, mixed and unsigned high halves differ", high_half, |m| m.reading_decides()),
    ("middle products carry", high_half, |m| m.carries()),
    ("middle products do not carry, high half not 0", high_half, |m| !m.carries() && m.high() != 0),
    ("upper half of rs1 is not the word's sign", word_form, |m| MWord::dirty(m.a)),
    ("upper half of rs2 is not the word's sign", word_form, |m| MWord::dirty(m.b)),
    ("divisor's low word 0, its upper half not", divides_words, |m| m.y == 0 && m.b != 0),
    ("divisor's low word 0, divisor not", divides, |m| m.b != 0 && m.b % (1 << 32) == 0),
    ("64-bit form gives another low word", divides_words, |m| m.width_decides()),
    ("word's result has its top bit set", word_form, |m| m.top(register_value(m.kind, m.a, m.b))),
    ("word's result has its top bit clear", word_form, |m| !m.top(register_value(m.kind, m.a, m.b))),
    ("rd is x0", any, |m| m.registers.0 == 0),
    ("rd is rs1 alone", any, |m| m.registers.0 == m.registers.1 && m.registers.0 != m.registers.2),
    ("rd is rs2 alone", any, |m| m.registers.0 == m.registers.2 && m.registers.0 != m.registers.1),
    ("rs1 is rs2 alone", any, |m| m.registers.1 == m.registers.2 && m.registers.0 != m.registers.1),
    ("rd, rs1, rs2 are one", any, |m| m.registers.0 != 0 && m.registers.0 == m.registers.1 && m.registers.0 == m.registers.2),
    ("rs1 is x0", any, |m| m.registers.1 == 0),
    ("rs2 is x0", any, |m| m.registers.2 == 0),
];

/// Counts by class and by word.
pub type Met = BTreeMap<&'static str, [u64; M_WORDS]>;

/// Counts a word that a machine is about to make.
pub fn count(machine: &Machine, instruction: &Instruction, met: &mut Met) {
    let Some((n, word)) = MWord::of(machine, instruction) else { return };
    for (class, can, test) in M_CLASSES {
        if can(word.kind) && test(&word) {
            met.entry(class).or_default()[n] += 1;
        }
    }
}

pub fn names() -> [String; M_WORDS] {
    std::array::from_fn(|n| name(&Instruction::Register { kind: m_kind(n), rd: 0, rs1: 0, rs2: 0 }).to_lowercase())
}

/// The words that met no operands of a class, of those that can.
pub fn unmet(met: &Met) -> Vec<String> {
    let mut all = Vec::new();
    for (class, can, _) in M_CLASSES {
        let met = met.get(class).copied().unwrap_or_default();
        for n in (0..M_WORDS).filter(|n| can(m_kind(*n)) && met[*n] == 0) {
            all.push(format!("{} met no operands of the class: {class}", names()[n]));
        }
    }
    all
}

//! The half-size words of document 02, Job 8: the integer words of RV64C, row by
//! row in the order of the manual's listing. A row has the 16 bits as the listing
//! draws them, and the instruction that it stands for.

use std::collections::HashMap;
use std::sync::OnceLock;

use crate::instruction::{
    encode, BranchKind, ImmediateKind, Instruction, LoadKind, RegisterKind, ShiftKind, StoreKind, SystemKind, UpperKind,
};
use crate::numbers::{bits, signed};

/// The registers with a part of their own in the words.
const ZERO: u64 = 0;
const LINK: u64 = 1;
const STACK: u64 = 2;

/// A 16-bit word and the fields that the formats cut out of it.
#[derive(Clone, Copy)]
pub struct Half(pub u16);

impl Half {
    /// Bits `low` to `high`, both included, as a number.
    fn bits(self, high: u32, low: u32) -> u64 {
        bits(self.0 as u32, high, low)
    }

    /// rd or rs1 of the formats with five bits for it.
    fn rd(self) -> u64 {
        self.bits(11, 7)
    }

    /// rs2 of the formats with five bits for it.
    fn rs2(self) -> u64 {
        self.bits(6, 2)
    }

    /// rs1' or rd' at bits 9 to 7: x8 to x15.
    fn upper(self) -> u64 {
        8 + self.bits(9, 7)
    }

    /// rd' or rs2' at bits 4 to 2: x8 to x15.
    fn lower(self) -> u64 {
        8 + self.bits(4, 2)
    }

    /// A number whose bits are strewn over the word: a pair is a bit of the word
    /// and, from it downward, the bits of the number that stand there.
    fn gather(self, places: &[(u32, &[u32])]) -> u64 {
        let mut value = 0;
        for (first, numbers) in places {
            for (n, number) in numbers.iter().enumerate() {
                let place = first - n as u32;
                value += self.bits(place, place) << number;
            }
        }
        value
    }

    /// The six bits of C.ADDI and its kin: imm[5], imm[4:0].
    fn six(self) -> u64 {
        self.gather(&[(12, &[5]), (6, &[4, 3, 2, 1, 0])])
    }

    fn six_signed(self) -> i64 {
        signed(self.six(), 6) as i64
    }

    /// nzuimm[5:4|9:6|2|3]
    fn stack_distance(self) -> i64 {
        self.gather(&[(12, &[5, 4, 9, 8, 7, 6, 2, 3])]) as i64
    }

    /// nzimm[9], nzimm[4|6|8:7|5]
    fn stack_step(self) -> i64 {
        signed(self.gather(&[(12, &[9]), (6, &[4, 6, 8, 7, 5])]), 10) as i64
    }

    /// uimm[5:3], uimm[2|6]
    fn word_offset(self) -> i64 {
        self.gather(&[(12, &[5, 4, 3]), (6, &[2, 6])]) as i64
    }

    /// uimm[5:3], uimm[7:6]
    fn double_offset(self) -> i64 {
        self.gather(&[(12, &[5, 4, 3]), (6, &[7, 6])]) as i64
    }

    /// uimm[5], uimm[4:2|7:6]
    fn stack_load_word(self) -> i64 {
        self.gather(&[(12, &[5]), (6, &[4, 3, 2, 7, 6])]) as i64
    }

    /// uimm[5], uimm[4:3|8:6]
    fn stack_load_double(self) -> i64 {
        self.gather(&[(12, &[5]), (6, &[4, 3, 8, 7, 6])]) as i64
    }

    /// uimm[5:2|7:6]
    fn stack_store_word(self) -> i64 {
        self.gather(&[(12, &[5, 4, 3, 2, 7, 6])]) as i64
    }

    /// uimm[5:3|8:6]
    fn stack_store_double(self) -> i64 {
        self.gather(&[(12, &[5, 4, 3, 8, 7, 6])]) as i64
    }

    /// imm[11|4|9:8|10|6|7|3:1|5]
    fn jump_offset(self) -> i64 {
        signed(self.gather(&[(12, &[11, 4, 9, 8, 10, 6, 7, 3, 2, 1, 5])]), 12) as i64
    }

    /// imm[8|4:3], imm[7:6|2:1|5]
    fn branch_offset(self) -> i64 {
        signed(self.gather(&[(12, &[8, 4, 3]), (6, &[7, 6, 2, 1, 5])]), 9) as i64
    }
}

fn add_immediate(kind: ImmediateKind, rd: u64, rs1: u64, value: i64) -> Option<Instruction> {
    Some(Instruction::Immediate { kind, rd, rs1, value })
}

fn load(kind: LoadKind, rd: u64, rs1: u64, offset: i64) -> Option<Instruction> {
    Some(Instruction::Load { kind, rd, rs1, offset })
}

fn store(kind: StoreKind, rs1: u64, rs2: u64, offset: i64) -> Option<Instruction> {
    Some(Instruction::Store { kind, rs1, rs2, offset })
}

fn shift(kind: ShiftKind, rd: u64, half: Half) -> Option<Instruction> {
    Some(Instruction::Shift { kind, rd, rs1: rd, amount: half.six() })
}

/// rd' and rs2' into rd'.
fn both(kind: RegisterKind, half: Half) -> Option<Instruction> {
    Some(Instruction::Register { kind, rd: half.upper(), rs1: half.upper(), rs2: half.lower() })
}

fn branch(kind: BranchKind, half: Half) -> Option<Instruction> {
    Some(Instruction::Branch { kind, rs1: half.upper(), rs2: ZERO, offset: half.branch_offset() })
}

/// What the listing bars by "nz" or "≠0" is reserved.
fn unless(reserved: bool, instruction: Option<Instruction>) -> Option<Instruction> {
    instruction.filter(|_| !reserved)
}

/// A row: the name, the word's bits from 15 down to 0 (`.` for a field, blanks to read by), and its instruction.
pub type Row = (&'static str, &'static str, fn(Half) -> Option<Instruction>);

/// The listing's rows; of two that draw a word the first is meant. C.NOP is C.ADDI with x0; the words that the manual calls HINTs stand in the row of what they
/// would do (reading A61). The rows for 32-bit registers and for 128 bits, and those of floating-point loads and stores
/// (`FLOATING`), are not here.
pub const ROWS: [Row; 32] = [
    // quadrant 0
    ("C.ADDI4SPN", "000 ........ ... 00", |h| unless(h.stack_distance() == 0, add_immediate(ImmediateKind::Addi, h.lower(), STACK, h.stack_distance()))),
    ("C.LW", "010 ... ... .. ... 00", |h| load(LoadKind::Word, h.lower(), h.upper(), h.word_offset())),
    ("C.LD", "011 ... ... .. ... 00", |h| load(LoadKind::Double, h.lower(), h.upper(), h.double_offset())),
    ("C.SW", "110 ... ... .. ... 00", |h| store(StoreKind::Word, h.upper(), h.lower(), h.word_offset())),
    ("C.SD", "111 ... ... .. ... 00", |h| store(StoreKind::Double, h.upper(), h.lower(), h.double_offset())),
    // quadrant 1
    ("C.ADDI", "000 . ..... ..... 01", |h| add_immediate(ImmediateKind::Addi, h.rd(), h.rd(), h.six_signed())),
    ("C.ADDIW", "001 . ..... ..... 01", |h| unless(h.rd() == 0, add_immediate(ImmediateKind::Addiw, h.rd(), h.rd(), h.six_signed()))),
    ("C.LI", "010 . ..... ..... 01", |h| add_immediate(ImmediateKind::Addi, h.rd(), ZERO, h.six_signed())),
    ("C.ADDI16SP", "011 . 00010 ..... 01", |h| unless(h.stack_step() == 0, add_immediate(ImmediateKind::Addi, STACK, STACK, h.stack_step()))),
    ("C.LUI", "011 . ..... ..... 01", load_upper),
    ("C.SRLI", "100 . 00 ... ..... 01", |h| shift(ShiftKind::Srli, h.upper(), h)),
    ("C.SRAI", "100 . 01 ... ..... 01", |h| shift(ShiftKind::Srai, h.upper(), h)),
    ("C.ANDI", "100 . 10 ... ..... 01", |h| add_immediate(ImmediateKind::Andi, h.upper(), h.upper(), h.six_signed())),
    ("C.SUB", "100 0 11 ... 00 ... 01", |h| both(RegisterKind::Sub, h)),
    ("C.XOR", "100 0 11 ... 01 ... 01", |h| both(RegisterKind::Xor, h)),
    ("C.OR", "100 0 11 ... 10 ... 01", |h| both(RegisterKind::Or, h)),
    ("C.AND", "100 0 11 ... 11 ... 01", |h| both(RegisterKind::And, h)),
    ("C.SUBW", "100 1 11 ... 00 ... 01", |h| both(RegisterKind::Subw, h)),
    ("C.ADDW", "100 1 11 ... 01 ... 01", |h| both(RegisterKind::Addw, h)),
    ("C.J", "101 ........... 01", |h| Some(Instruction::Jal { rd: ZERO, offset: h.jump_offset() })),
    ("C.BEQZ", "110 ... ... ..... 01", |h| branch(BranchKind::Beq, h)),
    ("C.BNEZ", "111 ... ... ..... 01", |h| branch(BranchKind::Bne, h)),
    // quadrant 2
    ("C.SLLI", "000 . ..... ..... 10", |h| shift(ShiftKind::Slli, h.rd(), h)),
    ("C.LWSP", "010 . ..... ..... 10", |h| unless(h.rd() == 0, load(LoadKind::Word, h.rd(), STACK, h.stack_load_word()))),
    ("C.LDSP", "011 . ..... ..... 10", |h| unless(h.rd() == 0, load(LoadKind::Double, h.rd(), STACK, h.stack_load_double()))),
    ("C.JR", "100 0 ..... 00000 10", |h| unless(h.rd() == 0, Some(Instruction::Jalr { rd: ZERO, rs1: h.rd(), offset: 0 }))),
    ("C.MV", "100 0 ..... ..... 10", |h| Some(Instruction::Register { kind: RegisterKind::Add, rd: h.rd(), rs1: ZERO, rs2: h.rs2() })),
    ("C.EBREAK", "100 1 00000 00000 10", |_| Some(Instruction::System { kind: SystemKind::Ebreak })),
    ("C.JALR", "100 1 ..... 00000 10", |h| Some(Instruction::Jalr { rd: LINK, rs1: h.rd(), offset: 0 })),
    ("C.ADD", "100 1 ..... ..... 10", |h| Some(Instruction::Register { kind: RegisterKind::Add, rd: h.rd(), rs1: h.rd(), rs2: h.rs2() })),
    ("C.SWSP", "110 ...... ..... 10", |h| store(StoreKind::Word, STACK, h.rs2(), h.stack_store_word())),
    ("C.SDSP", "111 ...... ..... 10", |h| store(StoreKind::Double, STACK, h.rs2(), h.stack_store_double())),
];

/// "its floating-point loads and stores are illegal"
pub const FLOATING: [(&str, &str); 4] = [
    ("C.FLD", "001 ... ... .. ... 00"),
    ("C.FSD", "101 ... ... .. ... 00"),
    ("C.FLDSP", "001 . ..... ..... 10"),
    ("C.FSDSP", "101 ...... ..... 10"),
];

/// nzimm[17], nzimm[16:12]: as the 20-bit field of LUI, sign extended.
fn load_upper(half: Half) -> Option<Instruction> {
    let field = (half.six_signed() as u64) & 0xf_ffff;
    unless(half.six() == 0, Some(Instruction::Upper { kind: UpperKind::Lui, rd: half.rd(), field }))
}

/// Has the word the bits that a row draws?
pub fn drawn(half: u16, pattern: &str) -> bool {
    let marks: Vec<char> = pattern.chars().filter(|mark| *mark != ' ').collect();
    assert_eq!(marks.len(), 16, "{pattern}");
    marks.iter().enumerate().all(|(n, mark)| match mark {
        '.' => true,
        mark => (half >> (15 - n) & 1 == 1) == (*mark == '1'),
    })
}

/// The first row that draws the word; none for a floating-point word, for some
/// that are reserved and for the first half of a long one.
pub fn row(half: u16) -> Option<&'static Row> {
    ROWS.iter().find(|row| drawn(half, row.1))
}

/// The instruction that a 16-bit word stands for; none if it is illegal.
pub fn expand(half: u16) -> Option<Instruction> {
    // Patterns are slow to read, so all words are expanded once.
    static ALL: OnceLock<Vec<Option<Instruction>>> = OnceLock::new();
    ALL.get_or_init(|| (0..=u16::MAX).map(|half| row(half).and_then(|row| row.2(Half(half)))).collect())[half as usize]
}

/// All half-words that stand for an instruction: "equal expansions need not be
/// equal words".
pub fn shortened(instruction: &Instruction) -> &'static [u16] {
    static ALL: OnceLock<HashMap<u32, Vec<u16>>> = OnceLock::new();
    let all = ALL.get_or_init(|| {
        let mut all: HashMap<u32, Vec<u16>> = HashMap::new();
        for half in 0..=u16::MAX {
            if let Some(word) = expand(half).and_then(|instruction| encode(&instruction)) {
                all.entry(word).or_default().push(half);
            }
        }
        all
    });
    encode(instruction).and_then(|word| all.get(&word)).map_or(&[], |words| words.as_slice())
}

/// "takes two more only if the low two bits are both ones"
pub fn begins_long_word(half: u16) -> bool {
    half % 4 == 3
}

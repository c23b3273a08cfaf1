//! Words and instructions. Register numbers, shift amounts and the fields of
//! upper immediates and FENCE are plain numbers; offsets and immediates are
//! signed whole numbers.

use crate::machine::EXPLICIT;
use crate::numbers::{bits, signed};

#[derive(Clone, Copy, Debug, PartialEq, Eq)]
pub enum BranchKind {
    Beq,
    Bne,
    Blt,
    Bge,
    Bltu,
    Bgeu,
}

#[derive(Clone, Copy, Debug, PartialEq, Eq)]
pub enum LoadKind {
    Byte,
    Half,
    Word,
    Double,
    ByteUnsigned,
    HalfUnsigned,
    WordUnsigned,
}

#[derive(Clone, Copy, Debug, PartialEq, Eq)]
pub enum StoreKind {
    Byte,
    Half,
    Word,
    Double,
}

/// Operations with a 12-bit immediate.
#[derive(Clone, Copy, Debug, PartialEq, Eq)]
pub enum ImmediateKind {
    Addi,
    Slti,
    Sltiu,
    Xori,
    Ori,
    Andi,
    Addiw,
}

/// Shifts by a constant amount.
#[derive(Clone, Copy, Debug, PartialEq, Eq)]
pub enum ShiftKind {
    Slli,
    Srli,
    Srai,
    Slliw,
    Srliw,
    Sraiw,
}

/// Operations between two registers.
#[derive(Clone, Copy, Debug, PartialEq, Eq)]
pub enum RegisterKind {
    Add,
    Sub,
    Sll,
    Slt,
    Sltu,
    Xor,
    Srl,
    Sra,
    Or,
    And,
    Addw,
    Subw,
    Sllw,
    Srlw,
    Sraw,
    Mul,
    Mulh,
    Mulhsu,
    Mulhu,
    Div,
    Divu,
    Rem,
    Remu,
    Mulw,
    Divw,
    Divuw,
    Remw,
    Remuw,
}

#[derive(Clone, Copy, Debug, PartialEq, Eq)]
pub enum UpperKind {
    Lui,
    Auipc,
}

#[derive(Clone, Copy, Debug, PartialEq, Eq)]
pub enum SystemKind {
    Ecall,
    Ebreak,
}

/// The words of opcode 5b, in the order of their funct7.
#[derive(Clone, Copy, Debug, PartialEq, Eq)]
pub enum HfiKind {
    Enter,
    EnterJump,
    Exit,
    Select,
    SetBase,
    GetBase,
    SetBound,
    GetBound,
    SetPermission,
    GetPermission,
    SetHandler,
    GetHandler,
    Reset,
}

#[derive(Clone, Copy, Debug, PartialEq, Eq)]
pub enum Instruction {
    /// `field` is the 20-bit field of the word, 0 to 1,048,575.
    Upper { kind: UpperKind, rd: u64, field: u64 },
    Jal { rd: u64, offset: i64 },
    Jalr { rd: u64, rs1: u64, offset: i64 },
    Branch { kind: BranchKind, rs1: u64, rs2: u64, offset: i64 },
    Load { kind: LoadKind, rd: u64, rs1: u64, offset: i64 },
    Store { kind: StoreKind, rs1: u64, rs2: u64, offset: i64 },
    Immediate { kind: ImmediateKind, rd: u64, rs1: u64, value: i64 },
    Shift { kind: ShiftKind, rd: u64, rs1: u64, amount: u64 },
    Register { kind: RegisterKind, rd: u64, rs1: u64, rs2: u64 },
    /// `spare` is the 12-bit field fm, pred, succ.
    Fence { rd: u64, rs1: u64, spare: u64 },
    System { kind: SystemKind },
    /// `region` is one of `EXPLICIT`, registers are x0 to x15.
    HLoad { kind: LoadKind, region: u64, rd: u64, rs1: u64, offset: i64 },
    HStore { kind: StoreKind, region: u64, rs1: u64, rs2: u64, offset: i64 },
    /// A register field that the table's row does not name is 0.
    Hfi { kind: HfiKind, rd: u64, rs1: u64, rs2: u64 },
}

/// The table of document 01 for opcode 5b: which of rd, rs1, rs2 a row names.
pub const HFI_TABLE: [(HfiKind, bool, bool, bool); 13] = [
    // kind                    rd     rs1    rs2
    (HfiKind::Enter, false, true, false),
    (HfiKind::EnterJump, false, true, true),
    (HfiKind::Exit, false, false, false),
    (HfiKind::Select, false, true, false),
    (HfiKind::SetBase, false, true, false),
    (HfiKind::GetBase, true, false, false),
    (HfiKind::SetBound, false, true, false),
    (HfiKind::GetBound, true, false, false),
    (HfiKind::SetPermission, false, true, false),
    (HfiKind::GetPermission, true, false, false),
    (HfiKind::SetHandler, false, true, false),
    (HfiKind::GetHandler, true, false, false),
    (HfiKind::Reset, false, false, false),
];

pub const LOAD_TABLE: [(LoadKind, u64); 7] = [
    (LoadKind::Byte, 0),
    (LoadKind::Half, 1),
    (LoadKind::Word, 2),
    (LoadKind::Double, 3),
    (LoadKind::ByteUnsigned, 4),
    (LoadKind::HalfUnsigned, 5),
    (LoadKind::WordUnsigned, 6),
];

pub const STORE_TABLE: [(StoreKind, u64); 4] = [
    (StoreKind::Byte, 0),
    (StoreKind::Half, 1),
    (StoreKind::Word, 2),
    (StoreKind::Double, 3),
];

pub const BRANCH_TABLE: [(BranchKind, u64); 6] = [
    (BranchKind::Beq, 0),
    (BranchKind::Bne, 1),
    (BranchKind::Blt, 4),
    (BranchKind::Bge, 5),
    (BranchKind::Bltu, 6),
    (BranchKind::Bgeu, 7),
];

/// kind, opcode, funct3
pub const IMMEDIATE_TABLE: [(ImmediateKind, u64, u64); 7] = [
    (ImmediateKind::Addi, 0x13, 0),
    (ImmediateKind::Slti, 0x13, 2),
    (ImmediateKind::Sltiu, 0x13, 3),
    (ImmediateKind::Xori, 0x13, 4),
    (ImmediateKind::Ori, 0x13, 6),
    (ImmediateKind::Andi, 0x13, 7),
    (ImmediateKind::Addiw, 0x1b, 0),
];

/// kind, opcode, funct3, the bits above the amount, width of the amount
pub const SHIFT_TABLE: [(ShiftKind, u64, u64, u64, u32); 6] = [
    (ShiftKind::Slli, 0x13, 1, 0b000000, 6),
    (ShiftKind::Srli, 0x13, 5, 0b000000, 6),
    (ShiftKind::Srai, 0x13, 5, 0b010000, 6),
    (ShiftKind::Slliw, 0x1b, 1, 0b0000000, 5),
    (ShiftKind::Srliw, 0x1b, 5, 0b0000000, 5),
    (ShiftKind::Sraiw, 0x1b, 5, 0b0100000, 5),
];

/// kind, opcode, funct3, funct7; the rows of RV64I, then those of RV64M.
pub const REGISTER_TABLE: [(RegisterKind, u64, u64, u64); 28] = [
    (RegisterKind::Add, 0x33, 0, 0b0000000),
    (RegisterKind::Sub, 0x33, 0, 0b0100000),
    (RegisterKind::Sll, 0x33, 1, 0b0000000),
    (RegisterKind::Slt, 0x33, 2, 0b0000000),
    (RegisterKind::Sltu, 0x33, 3, 0b0000000),
    (RegisterKind::Xor, 0x33, 4, 0b0000000),
    (RegisterKind::Srl, 0x33, 5, 0b0000000),
    (RegisterKind::Sra, 0x33, 5, 0b0100000),
    (RegisterKind::Or, 0x33, 6, 0b0000000),
    (RegisterKind::And, 0x33, 7, 0b0000000),
    (RegisterKind::Addw, 0x3b, 0, 0b0000000),
    (RegisterKind::Subw, 0x3b, 0, 0b0100000),
    (RegisterKind::Sllw, 0x3b, 1, 0b0000000),
    (RegisterKind::Srlw, 0x3b, 5, 0b0000000),
    (RegisterKind::Sraw, 0x3b, 5, 0b0100000),
    (RegisterKind::Mul, 0x33, 0, 0b0000001),
    (RegisterKind::Mulh, 0x33, 1, 0b0000001),
    (RegisterKind::Mulhsu, 0x33, 2, 0b0000001),
    (RegisterKind::Mulhu, 0x33, 3, 0b0000001),
    (RegisterKind::Div, 0x33, 4, 0b0000001),
    (RegisterKind::Divu, 0x33, 5, 0b0000001),
    (RegisterKind::Rem, 0x33, 6, 0b0000001),
    (RegisterKind::Remu, 0x33, 7, 0b0000001),
    (RegisterKind::Mulw, 0x3b, 0, 0b0000001),
    (RegisterKind::Divw, 0x3b, 4, 0b0000001),
    (RegisterKind::Divuw, 0x3b, 5, 0b0000001),
    (RegisterKind::Remw, 0x3b, 6, 0b0000001),
    (RegisterKind::Remuw, 0x3b, 7, 0b0000001),
];

/// How many rows of `REGISTER_TABLE` are of RV64I.
pub const BASE_ROWS: usize = 15;

/// The words of RV64M: eight of 64 bits, five of 32.
pub const M_WORDS: usize = REGISTER_TABLE.len() - BASE_ROWS;

/// The n-th kind of RV64M.
pub fn m_kind(n: usize) -> RegisterKind {
    REGISTER_TABLE[BASE_ROWS + n].0
}

/// "the top bits of two register fields choose the explicit region: rs1's counts 2, that of rd or rs2 counts 1, and 0 to
/// 3 mean 1, 4, 5, 6" (document 02, Job 7). `other` is rd of a load, rs2 of a store.
fn chosen_region(rs1: u64, other: u64) -> u64 {
    EXPLICIT[(2 * (rs1 / 16) + other / 16) as usize] as u64
}

/// The instruction a 32-bit word stands for; none if the word is illegal.
pub fn decode(word: u32) -> Option<Instruction> {
    let opcode = bits(word, 6, 0);
    let rd = bits(word, 11, 7);
    let funct3 = bits(word, 14, 12);
    let rs1 = bits(word, 19, 15);
    let rs2 = bits(word, 24, 20);
    let funct7 = bits(word, 31, 25);

    // The immediates of the six formats.
    let i_value = signed(bits(word, 31, 20), 12) as i64;
    let s_value = signed(bits(word, 31, 25) * 32 + bits(word, 11, 7), 12) as i64;
    let b_value = signed(
        bits(word, 31, 31) * 4096 + bits(word, 7, 7) * 2048 + bits(word, 30, 25) * 32 + bits(word, 11, 8) * 2,
        13,
    ) as i64;
    let u_field = bits(word, 31, 12);
    let j_value = signed(
        bits(word, 31, 31) * 1048576
            + bits(word, 19, 12) * 4096
            + bits(word, 20, 20) * 2048
            + bits(word, 30, 21) * 2,
        21,
    ) as i64;

    match opcode {
        0x37 => Some(Instruction::Upper { kind: UpperKind::Lui, rd, field: u_field }),
        0x17 => Some(Instruction::Upper { kind: UpperKind::Auipc, rd, field: u_field }),
        0x6f => Some(Instruction::Jal { rd, offset: j_value }),
        0x67 if funct3 == 0 => Some(Instruction::Jalr { rd, rs1, offset: i_value }),
        0x63 => {
            let (kind, _) = *BRANCH_TABLE.iter().find(|row| row.1 == funct3)?;
            Some(Instruction::Branch { kind, rs1, rs2, offset: b_value })
        }
        0x03 => {
            let (kind, _) = *LOAD_TABLE.iter().find(|row| row.1 == funct3)?;
            Some(Instruction::Load { kind, rd, rs1, offset: i_value })
        }
        0x23 => {
            let (kind, _) = *STORE_TABLE.iter().find(|row| row.1 == funct3)?;
            Some(Instruction::Store { kind, rs1, rs2, offset: s_value })
        }
        0x0b => {
            let (kind, _) = *LOAD_TABLE.iter().find(|row| row.1 == funct3)?;
            Some(Instruction::HLoad { kind, region: chosen_region(rs1, rd), rd: rd % 16, rs1: rs1 % 16, offset: i_value })
        }
        0x2b => {
            let (kind, _) = *STORE_TABLE.iter().find(|row| row.1 == funct3)?;
            Some(Instruction::HStore { kind, region: chosen_region(rs1, rs2), rs1: rs1 % 16, rs2: rs2 % 16, offset: s_value })
        }
        0x13 | 0x1b => {
            if let Some(row) = IMMEDIATE_TABLE.iter().find(|row| row.1 == opcode && row.2 == funct3) {
                return Some(Instruction::Immediate { kind: row.0, rd, rs1, value: i_value });
            }
            for (kind, its_opcode, its_funct3, above, width) in SHIFT_TABLE {
                let amount = bits(word, 20 + width - 1, 20);
                let rest = bits(word, 31, 20 + width);
                if opcode == its_opcode && funct3 == its_funct3 && rest == above {
                    return Some(Instruction::Shift { kind, rd, rs1, amount });
                }
            }
            None
        }
        0x33 | 0x3b => {
            let row =
                REGISTER_TABLE.iter().find(|row| row.1 == opcode && row.2 == funct3 && row.3 == funct7)?;
            Some(Instruction::Register { kind: row.0, rd, rs1, rs2 })
        }
        0x0f if funct3 == 0 => Some(Instruction::Fence { rd, rs1, spare: bits(word, 31, 20) }),
        0x73 => match word {
            0x0000_0073 => Some(Instruction::System { kind: SystemKind::Ecall }),
            0x0010_0073 => Some(Instruction::System { kind: SystemKind::Ebreak }),
            _ => None,
        },
        0x5b if funct3 == 0 => {
            let (kind, has_rd, has_rs1, has_rs2) = *HFI_TABLE.get(funct7 as usize)?;
            let spare_zero = (has_rd || rd == 0) && (has_rs1 || rs1 == 0) && (has_rs2 || rs2 == 0);
            if spare_zero {
                Some(Instruction::Hfi { kind, rd, rs1, rs2 })
            } else {
                None
            }
        }
        _ => None,
    }
}

/// A word being put together; `None` once a field was outside its range.
struct Writer {
    word: Option<u64>,
}

impl Writer {
    fn start(opcode: u64) -> Writer {
        Writer { word: Some(opcode) }
    }

    /// Puts a number of `width` bits at bit `low`.
    fn field(self, value: u64, width: u32, low: u32) -> Writer {
        let fits = (value as u128) < (1u128 << width);
        Writer { word: self.word.filter(|_| fits).map(|word| word + (value << low)) }
    }

    /// Refuses unless the test holds.
    fn require(self, test: bool) -> Writer {
        Writer { word: self.word.filter(|_| test) }
    }

    fn register(self, number: u64, low: u32) -> Writer {
        self.field(number, 5, low)
    }

    fn finish(self) -> Option<u32> {
        self.word.map(|word| word as u32)
    }
}

/// Is a signed number expressible in `width` bits?
fn expressible(value: i64, width: u32) -> bool {
    let half = 1i128 << (width - 1);
    -half <= value as i128 && (value as i128) < half
}

/// Bits `low` to `high` of a two's complement number.
fn slice(value: i64, high: u32, low: u32) -> u64 {
    ((value as u64) >> low) & ((1u64 << (high - low + 1)) - 1)
}

fn i_type(opcode: u64, funct3: u64, rd: u64, rs1: u64, value: i64) -> Option<u32> {
    Writer::start(opcode)
        .register(rd, 7)
        .field(funct3, 3, 12)
        .register(rs1, 15)
        .require(expressible(value, 12))
        .field(slice(value, 11, 0), 12, 20)
        .finish()
}

fn s_type(opcode: u64, funct3: u64, rs1: u64, rs2: u64, offset: i64) -> Option<u32> {
    Writer::start(opcode)
        .require(expressible(offset, 12))
        .field(slice(offset, 4, 0), 5, 7)
        .field(funct3, 3, 12)
        .register(rs1, 15)
        .register(rs2, 20)
        .field(slice(offset, 11, 5), 7, 25)
        .finish()
}

fn r_type(opcode: u64, funct3: u64, funct7: u64, rd: u64, rs1: u64, rs2: u64) -> Option<u32> {
    Writer::start(opcode)
        .register(rd, 7)
        .field(funct3, 3, 12)
        .register(rs1, 15)
        .register(rs2, 20)
        .field(funct7, 7, 25)
        .finish()
}

/// The fields rs1 and rd, or rs2, of an h-word with this region; none if the
/// region is not explicit or a register is not x0 to x15.
fn h_fields(region: u64, rs1: u64, other: u64) -> Option<(u64, u64)> {
    let choice = EXPLICIT.iter().position(|number| *number as u64 == region)? as u64;
    (rs1 < 16 && other < 16).then(|| (rs1 + choice / 2 * 16, other + choice % 2 * 16))
}

/// The word of an instruction; none (answer 5, word 0) if a field is outside
/// its range.
pub fn encode(instruction: &Instruction) -> Option<u32> {
    match *instruction {
        Instruction::Upper { kind, rd, field } => {
            let opcode = match kind {
                UpperKind::Lui => 0x37,
                UpperKind::Auipc => 0x17,
            };
            Writer::start(opcode).register(rd, 7).field(field, 20, 12).finish()
        }
        Instruction::Jal { rd, offset } => Writer::start(0x6f)
            .register(rd, 7)
            .require(expressible(offset, 21) && offset % 2 == 0)
            .field(slice(offset, 19, 12), 8, 12)
            .field(slice(offset, 11, 11), 1, 20)
            .field(slice(offset, 10, 1), 10, 21)
            .field(slice(offset, 20, 20), 1, 31)
            .finish(),
        Instruction::Jalr { rd, rs1, offset } => i_type(0x67, 0, rd, rs1, offset),
        Instruction::Branch { kind, rs1, rs2, offset } => {
            let funct3 = BRANCH_TABLE.iter().find(|row| row.0 == kind)?.1;
            Writer::start(0x63)
                .require(expressible(offset, 13) && offset % 2 == 0)
                .field(slice(offset, 11, 11), 1, 7)
                .field(slice(offset, 4, 1), 4, 8)
                .field(funct3, 3, 12)
                .register(rs1, 15)
                .register(rs2, 20)
                .field(slice(offset, 10, 5), 6, 25)
                .field(slice(offset, 12, 12), 1, 31)
                .finish()
        }
        Instruction::Load { kind, rd, rs1, offset } => {
            let funct3 = LOAD_TABLE.iter().find(|row| row.0 == kind)?.1;
            i_type(0x03, funct3, rd, rs1, offset)
        }
        Instruction::HLoad { kind, region, rd, rs1, offset } => {
            let funct3 = LOAD_TABLE.iter().find(|row| row.0 == kind)?.1;
            let (rs1, rd) = h_fields(region, rs1, rd)?;
            i_type(0x0b, funct3, rd, rs1, offset)
        }
        Instruction::Store { kind, rs1, rs2, offset } => {
            let funct3 = STORE_TABLE.iter().find(|row| row.0 == kind)?.1;
            s_type(0x23, funct3, rs1, rs2, offset)
        }
        Instruction::HStore { kind, region, rs1, rs2, offset } => {
            let funct3 = STORE_TABLE.iter().find(|row| row.0 == kind)?.1;
            let (rs1, rs2) = h_fields(region, rs1, rs2)?;
            s_type(0x2b, funct3, rs1, rs2, offset)
        }
        Instruction::Immediate { kind, rd, rs1, value } => {
            let row = IMMEDIATE_TABLE.iter().find(|row| row.0 == kind)?;
            i_type(row.1, row.2, rd, rs1, value)
        }
        Instruction::Shift { kind, rd, rs1, amount } => {
            let row = SHIFT_TABLE.iter().find(|row| row.0 == kind)?;
            let (_, opcode, funct3, above, width) = *row;
            Writer::start(opcode)
                .register(rd, 7)
                .field(funct3, 3, 12)
                .register(rs1, 15)
                .field(amount, width, 20)
                .field(above, 12 - width, 20 + width)
                .finish()
        }
        Instruction::Register { kind, rd, rs1, rs2 } => {
            let row = REGISTER_TABLE.iter().find(|row| row.0 == kind)?;
            r_type(row.1, row.2, row.3, rd, rs1, rs2)
        }
        Instruction::Fence { rd, rs1, spare } => Writer::start(0x0f)
            .register(rd, 7)
            .field(0, 3, 12)
            .register(rs1, 15)
            .field(spare, 12, 20)
            .finish(),
        Instruction::System { kind: SystemKind::Ecall } => Some(0x0000_0073),
        Instruction::System { kind: SystemKind::Ebreak } => Some(0x0010_0073),
        Instruction::Hfi { kind, rd, rs1, rs2 } => {
            let funct7 = HFI_TABLE.iter().position(|row| row.0 == kind)?;
            let (_, has_rd, has_rs1, has_rs2) = HFI_TABLE[funct7];
            let spare_zero = (has_rd || rd == 0) && (has_rs1 || rs1 == 0) && (has_rs2 || rs2 == 0);
            if spare_zero {
                r_type(0x5b, 0, funct7 as u64, rd, rs1, rs2)
            } else {
                None
            }
        }
    }
}

/// A name for counting by instruction.
pub fn name(instruction: &Instruction) -> String {
    let text = match *instruction {
        Instruction::Upper { kind, .. } => format!("{kind:?}"),
        Instruction::Jal { .. } => "Jal".to_string(),
        Instruction::Jalr { .. } => "Jalr".to_string(),
        Instruction::Branch { kind, .. } => format!("{kind:?}"),
        Instruction::Load { kind, .. } => format!("Load{kind:?}"),
        Instruction::Store { kind, .. } => format!("Store{kind:?}"),
        Instruction::Immediate { kind, .. } => format!("{kind:?}"),
        Instruction::Shift { kind, .. } => format!("{kind:?}"),
        Instruction::Register { kind, .. } => format!("{kind:?}"),
        Instruction::Fence { .. } => "Fence".to_string(),
        Instruction::System { kind } => format!("{kind:?}"),
        Instruction::HLoad { kind, .. } => format!("HLoad{kind:?}"),
        Instruction::HStore { kind, .. } => format!("HStore{kind:?}"),
        Instruction::Hfi { kind, .. } => format!("Hfi{kind:?}"),
    };
    text
}

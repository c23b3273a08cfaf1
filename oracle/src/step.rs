//! One step: the questions of document 01 in their order, then the effect.

use crate::half_words::{begins_long_word, expand};
use crate::instruction::{
    decode, BranchKind, HfiKind, ImmediateKind, Instruction, LoadKind, RegisterKind, ShiftKind, StoreKind,
    SystemKind, UpperKind,
};
use crate::machine::{
    permission_fits, well_formed, Fault, Machine, Region, OPTION_LOCK, OPTION_REDIRECT_CALLS, OPTION_REDIRECT_EXITS,
    REGIONS,
};
use crate::numbers::{add, bit, power, signed, word_extended, wrap};
use crate::overlap::{code_is_writable, locked_code_is_writable};
use crate::region::{address, first_absent, first_refused, Access, Op, Place};

pub const MEMORY_LIMIT: usize = 16_777_216;

/// Lengths of an instruction word (document 02, Job 8).
pub const HALF: u64 = 2;
pub const LONG: u64 = 4;

/// A step as a call: questions 1, 3 and Job 5's, then the step itself. Answers
/// the stop and the address given with it.
pub fn step(machine: &mut Machine, memory: &mut [u8]) -> (u64, u64) {
    // 1. Is memory no longer than 16,777,216?
    if memory.len() > MEMORY_LIMIT {
        return (1, 0);
    }
    // 3. Is the machine well formed?
    if !well_formed(machine) {
        return (3, 0);
    }
    // Job 5: in locked HFI mode, is no byte both writable and executable?
    if locked_code_is_writable(machine) {
        return (4, 0);
    }
    step_asked(machine, memory)
}

/// Questions 4 to 13, with Job 6's before 8 and Job 5's after it, and the effect.
pub fn step_asked(machine: &mut Machine, memory: &mut [u8]) -> (u64, u64) {
    // 4. Is pc a multiple of 2?
    if machine.pc % HALF != 0 {
        return (10, 0);
    }
    // 5 and 6, of two bytes or of two and two more.
    let (word, length) = match fetch(machine, memory) {
        Ok(fetched) => fetched,
        Err(stop) => return stop,
    };
    // 7. Is the word legal?
    let instruction = match meaning(word, length) {
        Some(instruction) => instruction,
        None => return (13, 0),
    };
    // 8. Does HFI allow it? With Job 6, 23, 24 and 25 before 14.
    match hfi_refusal(machine, &instruction) {
        0 => {}
        number => return (number, 0),
    }
    // Job 5: would an enter begin locked HFI mode with such a byte?
    if enters_locked(machine, &instruction) && code_is_writable(machine) {
        return (22, 0);
    }
    // 9. Is the target of an enter with jump a multiple of 2?
    if let Instruction::Hfi { kind: HfiKind::EnterJump, rs2, .. } = instruction {
        if machine.get(rs2) % HALF != 0 {
            return (15, 0);
        }
    }
    if let Some(data) = data_access(machine, &instruction) {
        // 10. Is every data byte granted?
        if let Some((region, byte)) = first_refused(machine, &data) {
            machine.fault = Fault { occurred: 1, region, op: data.op.number(), address: byte };
            return (16, 0);
        }
        // 11. Are they in memory?
        if let Some(byte) = first_absent(machine, &data, memory.len()) {
            return (17, byte);
        }
    }
    // 12. Is it anything but an ECALL that is not redirected?
    if instruction == (Instruction::System { kind: SystemKind::Ecall }) && !calls_redirected(machine) {
        return (18, 0);
    }
    // 13. Is it anything but EBREAK?
    if instruction == (Instruction::System { kind: SystemKind::Ebreak }) {
        return (19, 0);
    }
    perform(machine, memory, &instruction, length);
    (0, 0)
}

/// Two bytes from `pc + from` on: 5, in HFI mode, are both executable? 6, are
/// they in memory?
fn fetch_half(machine: &mut Machine, memory: &[u8], from: u64) -> Result<u16, (u64, u64)> {
    let half = Access { op: Op::Fetch, place: Place::Implicit { address: add(machine.pc, from) }, size: HALF };
    if let Some((region, byte)) = first_refused(machine, &half) {
        machine.fault = Fault { occurred: 1, region, op: half.op.number(), address: byte };
        return Err((11, 0));
    }
    if let Some(byte) = first_absent(machine, &half, memory.len()) {
        return Err((12, byte));
    }
    Ok(read(machine, &half, memory) as u16)
}

/// The word at pc and its length, or the stop and its address. The second half
/// is asked about only if the first has ones for its low two bits.
pub fn fetch(machine: &mut Machine, memory: &[u8]) -> Result<(u32, u64), (u64, u64)> {
    let first = fetch_half(machine, memory, 0)?;
    if !begins_long_word(first) {
        return Ok((first as u32, HALF));
    }
    let second = fetch_half(machine, memory, HALF)?;
    Ok((second as u32 * 65_536 + first as u32, LONG))
}

/// The instruction that a fetched word stands for.
pub fn meaning(word: u32, length: u64) -> Option<Instruction> {
    if length == HALF {
        expand(word as u16)
    } else {
        decode(word)
    }
}

/// Either enter form whose operand has the lock bit.
pub fn enters_locked(machine: &Machine, instruction: &Instruction) -> bool {
    match *instruction {
        Instruction::Hfi { kind: HfiKind::Enter | HfiKind::EnterJump, rs1, .. } => bit(machine.get(rs1), OPTION_LOCK),
        _ => false,
    }
}

fn calls_redirected(machine: &Machine) -> bool {
    machine.mode == 1 && bit(machine.options, OPTION_REDIRECT_CALLS)
}

/// Where a machine is, as the rules of HFI mode see it.
#[derive(Clone, Copy, Debug, PartialEq, Eq)]
pub enum Mode {
    Outside,
    Unlocked,
    Locked,
}

/// Outside HFI mode the lock bit says nothing.
pub fn mode_of(machine: &Machine) -> Mode {
    match (machine.mode, machine.locked()) {
        (0, _) => Mode::Outside,
        (_, false) => Mode::Unlocked,
        (_, true) => Mode::Locked,
    }
}

/// Job 6: the number by which a word of opcode 5b is refused for where it
/// stands alone: outside HFI mode, inside unlocked, inside locked. 0 where it
/// may stand.
pub const MODE_RULES: [(HfiKind, [u64; 3]); 13] = [
    // 23, enter in HFI mode
    (HfiKind::Enter, [0, 23, 23]),
    (HfiKind::EnterJump, [0, 23, 23]),
    // 24, exit outside it
    (HfiKind::Exit, [24, 0, 0]),
    // 25: funct7 3 to 9, 11 or 12 in HFI mode when locked
    (HfiKind::Select, [0, 0, 25]),
    (HfiKind::SetBase, [0, 0, 25]),
    (HfiKind::GetBase, [0, 0, 25]),
    (HfiKind::SetBound, [0, 0, 25]),
    (HfiKind::GetBound, [0, 0, 25]),
    (HfiKind::SetPermission, [0, 0, 25]),
    (HfiKind::GetPermission, [0, 0, 25]),
    // 25: set handler in HFI mode, locked or unlocked
    (HfiKind::SetHandler, [0, 25, 25]),
    (HfiKind::GetHandler, [0, 0, 25]),
    (HfiKind::Reset, [0, 0, 25]),
];

/// Question 8 as Job 6 has split it: 23, 24 and 25, "asked just before 14",
/// so whatever the operand is; then 14. 0 if HFI allows it.
pub fn hfi_refusal(machine: &Machine, instruction: &Instruction) -> u64 {
    match mode_refusal(machine, instruction) {
        0 if operand_forbidden(machine, instruction) => 14,
        number => number,
    }
}

fn mode_refusal(machine: &Machine, instruction: &Instruction) -> u64 {
    let Instruction::Hfi { kind, .. } = *instruction else { return 0 };
    let row = MODE_RULES.iter().find(|row| row.0 == kind).expect("every kind has a row");
    row.1[mode_of(machine) as usize]
}

/// What keeps 14, item by item: "Faults in an operand, an h-word outside HFI
/// mode and a missing selection".
fn operand_forbidden(machine: &Machine, instruction: &Instruction) -> bool {
    let (kind, operand) = match *instruction {
        Instruction::HLoad { .. } | Instruction::HStore { .. } => return mode_of(machine) == Mode::Outside,
        Instruction::Hfi { kind, rs1, .. } => (kind, machine.get(rs1)),
        _ => return false,
    };
    match kind {
        // an options operand above 15
        HfiKind::Enter | HfiKind::EnterJump => operand > 15,
        // a selected number not 1 to 10
        HfiKind::Select => operand < 1 || operand > REGIONS as u64,
        // funct7 4 to 9 with selector 0, and a permission bit the region lacks
        HfiKind::SetBase | HfiKind::GetBase | HfiKind::SetBound | HfiKind::GetBound | HfiKind::GetPermission => {
            machine.selector == 0
        }
        HfiKind::SetPermission => {
            machine.selector == 0 || !permission_fits(machine.selector as usize, operand)
        }
        HfiKind::Exit | HfiKind::SetHandler | HfiKind::GetHandler | HfiKind::Reset => false,
    }
}

fn branch_taken(kind: BranchKind, a: u64, b: u64) -> bool {
    match kind {
        BranchKind::Beq => a == b,
        BranchKind::Bne => a != b,
        BranchKind::Blt => signed(a, 64) < signed(b, 64),
        BranchKind::Bge => signed(a, 64) >= signed(b, 64),
        BranchKind::Bltu => a < b,
        BranchKind::Bgeu => a >= b,
    }
}

/// The target of a taken branch, a jump or an enter with jump.
pub fn jump_target(machine: &Machine, instruction: &Instruction) -> Option<u64> {
    let pc = machine.pc as i128;
    match *instruction {
        Instruction::Jal { offset, .. } => Some(wrap(pc + offset as i128)),
        Instruction::Jalr { rs1, offset, .. } => {
            let sum = wrap(machine.get(rs1) as i128 + offset as i128);
            Some(sum - sum % 2)
        }
        Instruction::Branch { kind, rs1, rs2, offset } => {
            if branch_taken(kind, machine.get(rs1), machine.get(rs2)) {
                Some(wrap(pc + offset as i128))
            } else {
                None
            }
        }
        Instruction::Hfi { kind: HfiKind::EnterJump, rs2, .. } => Some(machine.get(rs2)),
        _ => None,
    }
}

pub fn load_size(kind: LoadKind) -> u64 {
    match kind {
        LoadKind::Byte | LoadKind::ByteUnsigned => 1,
        LoadKind::Half | LoadKind::HalfUnsigned => 2,
        LoadKind::Word | LoadKind::WordUnsigned => 4,
        LoadKind::Double => 8,
    }
}

pub fn store_size(kind: StoreKind) -> u64 {
    match kind {
        StoreKind::Byte => 1,
        StoreKind::Half => 2,
        StoreKind::Word => 4,
        StoreKind::Double => 8,
    }
}

/// The offset of an h-prefixed word into its region: "the unsigned value of
/// rs1 plus the signed immediate, as a whole number that does not wrap"
/// (document 02, Job 1).
fn explicit_offset(machine: &Machine, rs1: u64, immediate: i64) -> i128 {
    machine.get(rs1) as i128 + immediate as i128
}

/// The data access that an instruction makes.
pub fn data_access(machine: &Machine, instruction: &Instruction) -> Option<Access> {
    let ordinary =
        |rs1: u64, offset: i64| Place::Implicit { address: wrap(machine.get(rs1) as i128 + offset as i128) };
    let explicit = |region: u64, rs1: u64, offset: i64| Place::Explicit {
        region: region as usize,
        offset: explicit_offset(machine, rs1, offset),
    };
    match *instruction {
        Instruction::Load { kind, rs1, offset, .. } => {
            Some(Access { op: Op::Load, place: ordinary(rs1, offset), size: load_size(kind) })
        }
        Instruction::HLoad { kind, region, rs1, offset, .. } => {
            Some(Access { op: Op::Load, place: explicit(region, rs1, offset), size: load_size(kind) })
        }
        Instruction::Store { kind, rs1, offset, .. } => {
            Some(Access { op: Op::Store, place: ordinary(rs1, offset), size: store_size(kind) })
        }
        Instruction::HStore { kind, region, rs1, offset, .. } => {
            Some(Access { op: Op::Store, place: explicit(region, rs1, offset), size: store_size(kind) })
        }
        _ => None,
    }
}

/// The little-endian number at an access all of whose bytes are in memory.
fn read(machine: &Machine, access: &Access, memory: &[u8]) -> u64 {
    let mut value: u128 = 0;
    for i in 0..access.size {
        value += memory[address(machine, access, i) as usize] as u128 * power(8 * i as u32);
    }
    value as u64
}

fn write(machine: &Machine, access: &Access, memory: &mut [u8], value: u64) {
    for i in 0..access.size {
        memory[address(machine, access, i) as usize] = (value as u128 / power(8 * i as u32) % 256) as u8;
    }
}

/// What a load puts in rd.
fn loaded(kind: LoadKind, raw: u64) -> u64 {
    match kind {
        LoadKind::Byte => wrap(signed(raw, 8)),
        LoadKind::Half => wrap(signed(raw, 16)),
        LoadKind::Word => wrap(signed(raw, 32)),
        LoadKind::Double | LoadKind::ByteUnsigned | LoadKind::HalfUnsigned | LoadKind::WordUnsigned => raw,
    }
}

fn low_word(a: u64) -> u64 {
    (a as u128 % power(32)) as u64
}

fn shift_left(a: u64, amount: u64) -> u64 {
    (a as u128 * power(amount as u32) % power(64)) as u64
}

fn shift_right(a: u64, amount: u64) -> u64 {
    (a as u128 / power(amount as u32)) as u64
}

/// Right shift of a signed whole number: division rounded downward.
fn shift_right_signed(a: i128, amount: u64) -> u64 {
    wrap(a.div_euclid(power(amount as u32) as i128))
}

fn flag(test: bool) -> u64 {
    if test {
        1
    } else {
        0
    }
}

fn immediate_value(kind: ImmediateKind, a: u64, value: i64) -> u64 {
    let extended = wrap(value as i128);
    match kind {
        ImmediateKind::Addi => add(a, extended),
        ImmediateKind::Slti => flag(signed(a, 64) < value as i128),
        ImmediateKind::Sltiu => flag(a < extended),
        ImmediateKind::Xori => a ^ extended,
        ImmediateKind::Ori => a | extended,
        ImmediateKind::Andi => a & extended,
        ImmediateKind::Addiw => word_extended(add(a, extended)),
    }
}

fn shift_value(kind: ShiftKind, a: u64, amount: u64) -> u64 {
    match kind {
        ShiftKind::Slli => shift_left(a, amount),
        ShiftKind::Srli => shift_right(a, amount),
        ShiftKind::Srai => shift_right_signed(signed(a, 64), amount),
        ShiftKind::Slliw => word_extended(shift_left(low_word(a), amount)),
        ShiftKind::Srliw => word_extended(shift_right(low_word(a), amount)),
        ShiftKind::Sraiw => shift_right_signed(signed(a, 32), amount),
    }
}

/// The high half of a product, rounded downward as two's complement is.
fn high(product: i128) -> u64 {
    wrap(product.div_euclid(power(64) as i128))
}

/// "The quotient of division by zero has all bits set"; others are rounded
/// towards zero. The most negative number divided by -1 comes to a number that
/// wraps to the dividend.
fn quotient(dividend: i128, divisor: i128) -> u64 {
    wrap(if divisor == 0 { -1 } else { dividend / divisor })
}

/// "The remainder of division by zero equals the dividend"; another has the
/// dividend's sign.
fn remainder(dividend: i128, divisor: i128) -> u64 {
    wrap(if divisor == 0 { dividend } else { dividend % divisor })
}

pub fn register_value(kind: RegisterKind, a: u64, b: u64) -> u64 {
    let low = |a: u64| low_word(a) as i128;
    match kind {
        RegisterKind::Add => wrap(a as i128 + b as i128),
        RegisterKind::Sub => wrap(a as i128 - b as i128),
        RegisterKind::Sll => shift_left(a, b % 64),
        RegisterKind::Slt => flag(signed(a, 64) < signed(b, 64)),
        RegisterKind::Sltu => flag(a < b),
        RegisterKind::Xor => a ^ b,
        RegisterKind::Srl => shift_right(a, b % 64),
        RegisterKind::Sra => shift_right_signed(signed(a, 64), b % 64),
        RegisterKind::Or => a | b,
        RegisterKind::And => a & b,
        RegisterKind::Addw => word_extended(wrap(a as i128 + b as i128)),
        RegisterKind::Subw => word_extended(wrap(a as i128 - b as i128)),
        RegisterKind::Sllw => word_extended(shift_left(low_word(a), b % 32)),
        RegisterKind::Srlw => word_extended(shift_right(low_word(a), b % 32)),
        RegisterKind::Sraw => shift_right_signed(signed(a, 32), b % 32),
        RegisterKind::Mul => wrap(signed(a, 64) * signed(b, 64)),
        RegisterKind::Mulh => high(signed(a, 64) * signed(b, 64)),
        RegisterKind::Mulhsu => high(signed(a, 64) * b as i128),
        RegisterKind::Mulhu => (a as u128 * b as u128 / power(64)) as u64,
        RegisterKind::Div => quotient(signed(a, 64), signed(b, 64)),
        RegisterKind::Divu => quotient(a as i128, b as i128),
        RegisterKind::Rem => remainder(signed(a, 64), signed(b, 64)),
        RegisterKind::Remu => remainder(a as i128, b as i128),
        RegisterKind::Mulw => word_extended(wrap(signed(a, 32) * signed(b, 32))),
        RegisterKind::Divw => word_extended(quotient(signed(a, 32), signed(b, 32))),
        RegisterKind::Divuw => word_extended(quotient(low(a), low(b))),
        RegisterKind::Remw => word_extended(remainder(signed(a, 32), signed(b, 32))),
        RegisterKind::Remuw => word_extended(remainder(low(a), low(b))),
    }
}

/// The effect of an instruction that passed every question; its word's length
/// counts in the next pc and in links.
fn perform(machine: &mut Machine, memory: &mut [u8], instruction: &Instruction, length: u64) {
    let pc = machine.pc;
    let next = add(pc, length);
    let target = jump_target(machine, instruction);
    let data = data_access(machine, instruction);

    // The value that goes to rd, if one does.
    let mut written: Option<(u64, u64)> = None;
    match *instruction {
        Instruction::Upper { kind, rd, field } => {
            let upper = signed(field, 20) * 4096;
            let value = match kind {
                UpperKind::Lui => wrap(upper),
                UpperKind::Auipc => wrap(pc as i128 + upper),
            };
            written = Some((rd, value));
        }
        Instruction::Jal { rd, .. } | Instruction::Jalr { rd, .. } => written = Some((rd, next)),
        Instruction::Branch { .. } => {}
        Instruction::Load { kind, rd, .. } | Instruction::HLoad { kind, rd, .. } => {
            written = Some((rd, loaded(kind, read(machine, &data.unwrap(), memory))));
        }
        Instruction::Store { rs2, .. } | Instruction::HStore { rs2, .. } => {
            write(machine, &data.unwrap(), memory, machine.get(rs2));
        }
        Instruction::Immediate { kind, rd, rs1, value } => {
            written = Some((rd, immediate_value(kind, machine.get(rs1), value)));
        }
        Instruction::Shift { kind, rd, rs1, amount } => {
            written = Some((rd, shift_value(kind, machine.get(rs1), amount)));
        }
        Instruction::Register { kind, rd, rs1, rs2 } => {
            written = Some((rd, register_value(kind, machine.get(rs1), machine.get(rs2))));
        }
        Instruction::Fence { .. } => {}
        Instruction::System { .. } => {
            // Only a redirected ECALL comes here.
            machine.mode = 0;
            machine.reason = 2;
            machine.exit_pc = pc;
            machine.pc = machine.handler;
            return;
        }
        Instruction::Hfi { kind, rd, rs1, .. } => {
            let operand = machine.get(rs1);
            let chosen = machine.selector as usize;
            match kind {
                HfiKind::Enter | HfiKind::EnterJump => {
                    machine.mode = 1;
                    machine.options = operand;
                    machine.fault.occurred = 0;
                }
                HfiKind::Exit => {
                    machine.mode = 0;
                    machine.reason = 1;
                    machine.exit_pc = pc;
                    machine.pc =
                        if bit(machine.options, OPTION_REDIRECT_EXITS) { machine.handler } else { next };
                    return;
                }
                HfiKind::Select => machine.selector = operand,
                HfiKind::SetBase => machine.regions[chosen - 1].base = operand,
                HfiKind::GetBase => written = Some((rd, machine.regions[chosen - 1].base)),
                HfiKind::SetBound => machine.regions[chosen - 1].bound = operand,
                HfiKind::GetBound => written = Some((rd, machine.regions[chosen - 1].bound)),
                HfiKind::SetPermission => machine.regions[chosen - 1].permission = operand,
                HfiKind::GetPermission => written = Some((rd, machine.regions[chosen - 1].permission)),
                HfiKind::SetHandler => machine.handler = clear_handler_bits(operand),
                HfiKind::GetHandler => written = Some((rd, machine.handler)),
                HfiKind::Reset => {
                    machine.regions = [Region::default(); REGIONS];
                    machine.selector = 0;
                }
            }
        }
    }
    if let Some((rd, value)) = written {
        machine.set(rd, value);
    }
    machine.pc = target.unwrap_or(next);
}

/// "Set handler clears bits 0, 1, 62, 63."
fn clear_handler_bits(value: u64) -> u64 {
    let mut kept = value;
    for place in [0, 1, 62, 63] {
        if bit(kept, place) {
            kept -= 1u64 << place;
        }
    }
    kept
}

//! The proved libraries, over their C interface (`c/koubospar.h`), as an engine.

use crate::compare::Engine;
use crate::instruction::*;
use crate::machine::Machine;
use crate::scheduler::{Answer, Scheduler, Slot};

/// `struct koubospar_instruction`
#[repr(C)]
#[derive(Clone, Copy, Debug, PartialEq, Eq, Default)]
pub struct Flat {
    pub group: u64,
    pub kind: u64,
    pub rd: u64,
    pub rs1: u64,
    pub rs2: u64,
    pub imm: u64,
    pub fm: u64,
    pub pred: u64,
    pub succ: u64,
    pub region: u64,
}

#[repr(C)]
struct Decoded {
    number: u64,
    instruction: Flat,
}

#[repr(C)]
struct Encoded {
    number: u64,
    word: u32,
}

#[repr(C)]
struct Stop {
    stop: u64,
    address: u64,
}

#[repr(C)]
struct RunStop {
    stop: u64,
    count: u64,
    address: u64,
}

/// `struct koubospar_turn_stop`
#[repr(C)]
struct TurnStop {
    slot: u64,
    stop: u64,
    count: u64,
    address: u64,
}

/// The most bytes that the answer to a sheet takes.
const MOST: usize = 1373;

// The oracle's machine has the layout of `struct koubospar_machine`: 73 numbers in the same order.
const _: () = assert!(std::mem::size_of::<Machine>() == 584);
// Its slot and its scheduler have those of `struct koubospar_slot` and `struct koubospar_scheduler`.
const _: () = assert!(std::mem::size_of::<Slot>() == 592 && std::mem::offset_of!(Slot, stop) == 584);
const _: () = assert!(std::mem::size_of::<Scheduler>() == 2392 && std::mem::offset_of!(Scheduler, slots) == 0);
const _: () = assert!(std::mem::offset_of!(Scheduler, count) == 2368);
const _: () = assert!(std::mem::offset_of!(Scheduler, place) == 2376);
const _: () = assert!(std::mem::offset_of!(Scheduler, total) == 2384);

#[link(name = "koubospar_codec", kind = "static")]
extern "C" {
    fn koubospar_decode(word: u32) -> Decoded;
    fn koubospar_expand(half: u16) -> Decoded;
    fn koubospar_encode(instruction: Flat) -> Encoded;
}

#[link(name = "koubospar", kind = "static")]
extern "C" {
    fn koubospar_step(machine: *mut Machine, memory: *mut u8, length: usize) -> Stop;
    fn koubospar_run(machine: *mut Machine, memory: *mut u8, length: usize, budget: u64) -> RunStop;
    fn koubospar_resume(machine: *mut Machine, value: u64) -> Stop;
    fn koubospar_respond(input: *const u8, length: usize, output: *mut u8) -> usize;
    fn koubospar_turn(scheduler: *mut Scheduler, memory: *mut u8, length: usize, allowance: u64) -> TurnStop;
    fn koubospar_put(scheduler: *mut Scheduler, n: u64, machine: *const Machine) -> bool;
}

/// The number and the instruction of a word.
pub fn decoded(word: u32) -> (u64, Flat) {
    let d = unsafe { koubospar_decode(word) };
    (d.number, d.instruction)
}

/// The number and the instruction of a half-word.
pub fn expanded(half: u16) -> (u64, Flat) {
    let d = unsafe { koubospar_expand(half) };
    (d.number, d.instruction)
}

/// The number and the word of an instruction.
pub fn encoded(instruction: Flat) -> (u64, u32) {
    let e = unsafe { koubospar_encode(instruction) };
    (e.number, e.word)
}

/// The oracle's instruction in the library's terms. The library holds immediates as 64-bit values; an upper one has its
/// 12 low bits clear and is sign extended from bit 31. Fields outside their ranges stay outside (fields below 2^40).
pub fn flat(instruction: &Instruction) -> Flat {
    let nothing = Flat::default();
    match *instruction {
        Instruction::Upper { kind, rd, field } => {
            let value = if field < 1 << 20 { ((field << 12) as u32 as i32) as u64 } else { field << 12 };
            let kind = match kind {
                UpperKind::Lui => 0x37,
                UpperKind::Auipc => 0x17,
            };
            Flat { group: 1, kind, rd, imm: value, ..nothing }
        }
        Instruction::Jal { rd, offset } => Flat { group: 2, rd, imm: offset as u64, ..nothing },
        Instruction::Jalr { rd, rs1, offset } => Flat { group: 3, rd, rs1, imm: offset as u64, ..nothing },
        Instruction::Branch { kind, rs1, rs2, offset } => {
            let kind = BRANCH_TABLE.iter().find(|row| row.0 == kind).unwrap().1;
            Flat { group: 4, kind, rs1, rs2, imm: offset as u64, ..nothing }
        }
        Instruction::Load { kind, rd, rs1, offset } => {
            Flat { group: 5, kind: load_code(kind), rd, rs1, imm: offset as u64, ..nothing }
        }
        Instruction::Store { kind, rs1, rs2, offset } => {
            Flat { group: 6, kind: store_code(kind), rs1, rs2, imm: offset as u64, ..nothing }
        }
        Instruction::Immediate { kind, rd, rs1, value } => {
            let (_, opcode, funct3) = *IMMEDIATE_TABLE.iter().find(|row| row.0 == kind).unwrap();
            Flat { group: if opcode == 0x1b { 9 } else { 7 }, kind: funct3, rd, rs1, imm: value as u64, ..nothing }
        }
        Instruction::Shift { kind, rd, rs1, amount } => {
            let (_, opcode, funct3, above, _) = *SHIFT_TABLE.iter().find(|row| row.0 == kind).unwrap();
            Flat { group: if opcode == 0x1b { 10 } else { 8 }, kind: 8 * above + funct3, rd, rs1, imm: amount, ..nothing }
        }
        Instruction::Register { kind, rd, rs1, rs2 } => {
            let (_, opcode, funct3, funct7) = *REGISTER_TABLE.iter().find(|row| row.0 == kind).unwrap();
            Flat { group: if opcode == 0x3b { 12 } else { 11 }, kind: 8 * funct7 + funct3, rd, rs1, rs2, ..nothing }
        }
        Instruction::Fence { rd, rs1, spare } => {
            Flat { group: 13, rd, rs1, fm: spare >> 8, pred: spare >> 4 & 15, succ: spare & 15, ..nothing }
        }
        Instruction::System { kind } => {
            let kind = match kind {
                SystemKind::Ecall => 0,
                SystemKind::Ebreak => 1,
            };
            Flat { group: 14, kind, ..nothing }
        }
        Instruction::HLoad { kind, region, rd, rs1, offset } => {
            Flat { group: 15, kind: load_code(kind), rd, rs1, imm: offset as u64, region, ..nothing }
        }
        Instruction::HStore { kind, region, rs1, rs2, offset } => {
            Flat { group: 16, kind: store_code(kind), rs1, rs2, imm: offset as u64, region, ..nothing }
        }
        Instruction::Hfi { kind, rd, rs1, rs2 } => {
            let funct7 = HFI_TABLE.iter().position(|row| row.0 == kind).unwrap() as u64;
            Flat { group: 17, kind: funct7, rd, rs1, rs2, ..nothing }
        }
    }
}

fn load_code(kind: LoadKind) -> u64 {
    LOAD_TABLE.iter().find(|row| row.0 == kind).unwrap().1
}

fn store_code(kind: StoreKind) -> u64 {
    STORE_TABLE.iter().find(|row| row.0 == kind).unwrap().1
}

pub struct Proved;

impl Engine for Proved {
    fn title(&self) -> String {
        "proved".to_string()
    }
    fn decode_encode(&self, word: u32) -> Option<(u64, u32)> {
        let (number, instruction) = decoded(word);
        Some(if number == 0 { encoded(instruction) } else { (number, 0) })
    }
    fn step(&self, machine: &mut Machine, memory: &mut [u8]) -> Option<(u64, u64)> {
        let s = unsafe { koubospar_step(machine, memory.as_mut_ptr(), memory.len()) };
        Some((s.stop, s.address))
    }
    fn run(&self, machine: &mut Machine, memory: &mut [u8], budget: u64) -> Option<(u64, u64, u64)> {
        let r = unsafe { koubospar_run(machine, memory.as_mut_ptr(), memory.len(), budget) };
        Some((r.stop, r.count, r.address))
    }
    fn resume(&self, machine: &mut Machine, value: u64) -> Option<u64> {
        Some(unsafe { koubospar_resume(machine, value) }.stop)
    }
    fn respond(&self, sheet: &[u8]) -> Option<Vec<u8>> {
        let mut output = vec![0u8; MOST];
        let length = unsafe { koubospar_respond(sheet.as_ptr(), sheet.len(), output.as_mut_ptr()) };
        output.truncate(length);
        Some(output)
    }
    fn turn(&self, scheduler: &mut Scheduler, memory: &mut [u8], allowance: u64) -> Option<Answer> {
        let t = unsafe { koubospar_turn(scheduler, memory.as_mut_ptr(), memory.len(), allowance) };
        Some(Answer { slot: t.slot, stop: t.stop, count: t.count, address: t.address })
    }
    fn put(&self, scheduler: &mut Scheduler, n: u64, machine: &Machine) -> Option<bool> {
        Some(unsafe { koubospar_put(scheduler, n, machine) })
    }
}

//! Small helpers for the tests: words by name, and machines.
#![allow(dead_code)]

use oracle::instruction::*;
use oracle::*;

pub const ALL: u64 = 0xffff_ffff_ffff_ffff;

pub fn word(instruction: Instruction) -> u32 {
    encode(&instruction).expect("in range")
}

pub fn addi(rd: u64, rs1: u64, value: i64) -> u32 {
    word(Instruction::Immediate { kind: ImmediateKind::Addi, rd, rs1, value })
}

pub fn load(kind: LoadKind, rd: u64, rs1: u64, offset: i64) -> u32 {
    word(Instruction::Load { kind, rd, rs1, offset })
}

pub fn store(kind: StoreKind, rs2: u64, rs1: u64, offset: i64) -> u32 {
    word(Instruction::Store { kind, rs1, rs2, offset })
}

pub fn hload(kind: LoadKind, rd: u64, rs1: u64, offset: i64) -> u32 {
    hload_through(1, kind, rd, rs1, offset)
}

pub fn hstore(kind: StoreKind, rs2: u64, rs1: u64, offset: i64) -> u32 {
    hstore_through(1, kind, rs2, rs1, offset)
}

pub fn hload_through(region: u64, kind: LoadKind, rd: u64, rs1: u64, offset: i64) -> u32 {
    word(Instruction::HLoad { kind, region, rd, rs1, offset })
}

pub fn hstore_through(region: u64, kind: StoreKind, rs2: u64, rs1: u64, offset: i64) -> u32 {
    word(Instruction::HStore { kind, region, rs1, rs2, offset })
}

pub fn hfi(kind: HfiKind, rd: u64, rs1: u64, rs2: u64) -> u32 {
    word(Instruction::Hfi { kind, rd, rs1, rs2 })
}

pub fn branch(kind: BranchKind, rs1: u64, rs2: u64, offset: i64) -> u32 {
    word(Instruction::Branch { kind, rs1, rs2, offset })
}

pub fn jal(rd: u64, offset: i64) -> u32 {
    word(Instruction::Jal { rd, offset })
}

pub fn jalr(rd: u64, rs1: u64, offset: i64) -> u32 {
    word(Instruction::Jalr { rd, rs1, offset })
}

pub const ECALL: u32 = 0x73;
pub const EBREAK: u32 = 0x0010_0073;

/// Memory of a length with words from an address on.
pub fn memory(length: usize, at: usize, words: &[u32]) -> Vec<u8> {
    let mut bytes = vec![0u8; length];
    for (i, word) in words.iter().enumerate() {
        bytes[at + 4 * i..at + 4 * i + 4].copy_from_slice(&word.to_le_bytes());
    }
    bytes
}

/// Outside HFI mode, all else zero.
pub fn outside() -> Machine {
    Machine::default()
}

/// In HFI mode: code may be fetched below 4,096, region 2 is 4,096 to 8,191
/// with read and write, region 1 is small, base 8,192, bound 64, read and write.
pub fn inside() -> Machine {
    let mut machine = Machine { mode: 1, ..Machine::default() };
    machine.regions[0] = Region { base: 0x2000, bound: 64, permission: 3 };
    machine.regions[1] = Region { base: 0x1000, bound: 0xffff_ffff_ffff_f000, permission: 3 };
    machine.regions[2] = Region { base: 0, bound: 0xffff_ffff_ffff_f000, permission: 4 };
    machine
}

pub fn locked() -> Machine {
    Machine { options: 1, ..inside() }
}

/// A step that must stop so, changing nothing but what `expected` says.
pub fn stops(machine: Machine, memory: &[u8], stop: u64, address: u64) {
    let mut after = machine;
    let mut bytes = memory.to_vec();
    assert_eq!(step(&mut after, &mut bytes), (stop, address));
    assert_eq!(after, machine, "the machine changed");
    assert_eq!(bytes, memory, "memory changed");
    let mut after = machine;
    let count = 0;
    let expected = if stop == 0 { unreachable!() } else { (stop, count, address) };
    assert_eq!(run(&mut after, &mut bytes, 10), expected);
    assert_eq!(after, machine, "the machine changed in a run");
    assert_eq!(bytes, memory, "memory changed in a run");
}

/// A step that must stop with 11 or 16 and write this fault record.
pub fn faults(machine: Machine, memory: &[u8], stop: u64, region: u64, op: u64, address: u64) {
    let mut expected = machine;
    expected.fault = Fault { occurred: 1, region, op, address };
    let mut after = machine;
    let mut bytes = memory.to_vec();
    assert_eq!(step(&mut after, &mut bytes), (stop, 0));
    assert_eq!(after, expected);
    assert_eq!(bytes, memory, "memory changed");
    let mut after = machine;
    assert_eq!(run(&mut after, &mut bytes, 10), (stop, 0, 0));
    assert_eq!(after, expected);
    assert_eq!(bytes, memory, "memory changed in a run");
}

/// A step that must complete; the machine and memory after it.
pub fn completes(machine: Machine, memory: &[u8]) -> (Machine, Vec<u8>) {
    let mut after = machine;
    let mut bytes = memory.to_vec();
    assert_eq!(step(&mut after, &mut bytes), (0, 0));
    (after, bytes)
}

//! Document 02, Job 8: half-words, fetches in halves, lengths.

mod common;

use common::*;
use oracle::compare::{Counts, Engine, Oracle};
use oracle::fetches;
use oracle::half_words::{begins_long_word, drawn, shortened, FLOATING, ROWS};
use oracle::instruction::{ImmediateKind, LoadKind, RegisterKind, StoreKind};
use oracle::step::{fetch, meaning, HALF};
use oracle::supply::Supply;
use oracle::*;

/// What A61 calls reserved, by fields cut out with shifts.
fn reserved(half: u16) -> bool {
    let (quadrant, funct3, rd) = (half & 3, half >> 13, half >> 7 & 31);
    let six = half >> 12 & 1 | half >> 2 & 31; // 0 exactly if all six bits are
    match (quadrant, funct3) {
        (0, 0) => half >> 5 & 255 == 0,
        (0, 4) => true,
        (1, 1) => rd == 0,
        (1, 3) => six == 0,
        (1, 4) => half >> 10 & 7 == 7 && half >> 6 & 1 == 1,
        (2, 2) | (2, 3) => rd == 0,
        (2, 4) => half >> 12 & 1 == 0 && rd == 0 && half >> 2 & 31 == 0,
        _ => false,
    }
}

#[test]
fn legal_words() {
    let mut legal = 0;
    for half in 0..=u16::MAX {
        let floating = half & 3 != 1 && half & 3 != 3 && matches!(half >> 13, 1 | 5);
        let expected = !begins_long_word(half) && !floating && !reserved(half);
        assert_eq!(expand(half).is_some(), expected, "{half:04x}");
        assert_eq!(FLOATING.iter().any(|row| drawn(half, row.1)), floating, "{half:04x}");
        legal += expected as u32;
    }
    assert_eq!(legal, 38_551);
}

/// "each legal half-word has exactly one expansion", which a long word has too; "equal expansions need not be equal words".
#[test]
fn expansions() {
    for half in 0..=u16::MAX {
        if let Some(instruction) = expand(half) {
            assert_eq!(decode(encode(&instruction).expect("in range")), Some(instruction));
            assert!(shortened(&instruction).contains(&half));
        }
    }
    assert_eq!(expand(0x0001), expand(0x4001)); // C.NOP and C.LI x0, 0
    assert_eq!(expand(0x0141), expand(0x6141)); // C.ADDI x2, 16 and C.ADDI16SP 16
    assert_eq!(shortened(&Instruction::Immediate { kind: ImmediateKind::Addi, rd: 0, rs1: 0, value: 0 }), [0x0001, 0x4001]);
}

/// "the decode and encode rule keeps to long words"
#[test]
fn codec_keeps_to_long_words() {
    for half in (0..=u16::MAX).filter(|half| !begins_long_word(*half)) {
        for upper in [0, 1, 0x9002, 0xffff] {
            assert_eq!(decode(upper << 16 | half as u32), None);
        }
    }
}

/// Each row has a word that stands for its instruction; the rows are met in the listing's order.
#[test]
fn rows() {
    for (name, pattern, _) in ROWS {
        let own = (0..=u16::MAX).filter(|half| oracle::half_words::row(*half).is_some_and(|row| row.0 == name));
        assert!(own.filter(|half| drawn(*half, pattern) && expand(*half).is_some()).count() >= 1, "{name}");
    }
}

fn short(half: u16) -> Vec<u8> {
    let mut bytes = vec![0; 64];
    bytes[..2].copy_from_slice(&half.to_le_bytes());
    bytes
}

#[test]
fn values() {
    let mut machine = outside();
    (machine.x[2], machine.x[8], machine.x[9]) = (0x20, 7, 9);
    for (half, register, value) in [
        (0x0040, 8, 0x24),           // C.ADDI4SPN x8, 4
        (0x1ffc, 15, 0x20 + 1020),   // C.ADDI4SPN x15, 1020
        (0x7101, 2, 0x20 - 512),     // C.ADDI16SP -512
        (0x617d, 2, 0x20 + 496),     // C.ADDI16SP 496
        (0x5ffd, 31, -1),            // C.LI x31, -1
        (0x7281, 5, -0x20000),       // C.LUI x5, fffe0
        (0x8c05, 8, -2),             // C.SUB x8, x9
        (0x9c05, 8, -2),             // C.SUBW x8, x9
        (0x9c25, 8, 16),             // C.ADDW x8, x9
        (0x8ca6, 25, 9),             // C.MV x25, x9
        (0x94a2, 9, 16),             // C.ADD x9, x8
    ] {
        let (after, _) = completes(machine, &short(half));
        assert_eq!((after.pc, after.x[register]), (2, value as u64), "{half:04x}");
    }
}

/// 11 and 12 of the first two bytes, then of the other two, 13 after all (A60, A62).
#[test]
fn order_of_the_fetch() {
    let two = |base: u64| Machine { regions: with_code(base, 1), ..inside() };
    let long = memory(64, 4, &[addi(5, 0, 1)]);
    faults(Machine { pc: 4, ..two(4) }, &long, 11, 0, 3, 6);
    faults(Machine { pc: 4, ..two(4) }, &long[..6], 11, 0, 3, 6);
    stops(Machine { pc: 4, ..two(4) }, &long[..5], 12, 5);
    faults(Machine { pc: 4, ..two(8) }, &long[..4], 11, 0, 3, 4);
    stops(Machine { pc: 4, ..inside() }, &long[..7], 12, 7);
    faults(Machine { pc: 4, ..two(4) }, &memory(64, 4, &[0xffff_ffff]), 11, 0, 3, 6);
    stops(Machine { pc: 4, ..two(4) }, &memory(64, 4, &[0xffff_8000]), 13, 0);
    stops(Machine { pc: 4, ..two(4) }, &memory(64, 4, &[0xffff_8000])[..6], 13, 0);
    let (after, _) = completes(Machine { pc: 4, ..two(4) }, &memory(64, 4, &[0xffff_0001])[..6]);
    assert_eq!(after.pc, 6);
    // No fetch gets past byte 2^64 - 1.
    stops(Machine { pc: ALL - 1, ..outside() }, &long, 12, ALL - 1);
}

fn with_code(base: u64, k: u32) -> [Region; 10] {
    let mut regions = inside().regions;
    regions[2] = Region { base, bound: ALL << k, permission: 4 };
    regions
}

/// A whole program, with and without half-words, comes to the same but for pc and links.
#[test]
fn shortened_program() {
    let long: [Instruction; 5] = [
        Instruction::Immediate { kind: ImmediateKind::Addi, rd: 8, rs1: 0, value: 20 },
        Instruction::Register { kind: RegisterKind::Add, rd: 10, rs1: 10, rs2: 8 },
        Instruction::Store { kind: StoreKind::Double, rs1: 2, rs2: 10, offset: 8 },
        Instruction::Load { kind: LoadKind::Word, rd: 9, rs1: 2, offset: 8 },
        Instruction::Register { kind: RegisterKind::Subw, rd: 9, rs1: 9, rs2: 8 },
    ];
    let mut ends = Vec::new();
    for halves in [false, true] {
        let words = long.iter().flat_map(|instruction| match halves {
            true => shortened(instruction)[0].to_le_bytes().to_vec(),
            false => encode(instruction).unwrap().to_le_bytes().to_vec(),
        });
        let mut bytes: Vec<u8> = words.chain(ECALL.to_le_bytes()).collect();
        bytes.resize(256, 0);
        let mut machine = outside();
        machine.x[2] = 128;
        assert_eq!(run(&mut machine, &mut bytes, 100), (18, 5, 0));
        assert_eq!(machine.pc, if halves { 10 } else { 20 });
        ends.push((machine.x, bytes[128..].to_vec()));
    }
    assert_eq!(ends[0], ends[1]);
}

/// The aimed fetches and jumps are answered as told, and each is met.
#[test]
fn aimed() {
    let mut counts = Counts::default();
    for round in 0..7 {
        fetches::compare(&Oracle, &Oracle, &mut Supply::new(round), round as usize, &mut counts);
    }
    fetches::every_half_word(&Oracle, &Oracle, 3, &mut counts);
    assert_eq!(counts.differences, Vec::<String>::new());
    assert_eq!(fetches::unmet(&counts.fetches), Vec::<String>::new());
    assert!(fetches::unmet(&Default::default()).len() > ROWS.len());
    let legal: u64 = ROWS.iter().map(|row| counts.fetches[row.0]).sum();
    assert_eq!(legal, 2 * 38_551);
}

/// The oracle with another fetch or another length.
struct Bent(fn(&mut Machine, &mut [u8]) -> (u64, u64));

impl Engine for Bent {
    fn title(&self) -> String {
        "bent".to_string()
    }
    fn decode_encode(&self, _word: u32) -> Option<(u64, u32)> {
        None
    }
    fn step(&self, machine: &mut Machine, memory: &mut [u8]) -> Option<(u64, u64)> {
        Some((self.0)(machine, memory))
    }
    fn run(&self, _: &mut Machine, _: &mut [u8], _: u64) -> Option<(u64, u64, u64)> {
        None
    }
    fn resume(&self, _: &mut Machine, _: u64) -> Option<u64> {
        None
    }
    fn respond(&self, _: &[u8]) -> Option<Vec<u8>> {
        None
    }
}

/// Is the word at pc a legal half-word that the fetch passes?
fn at_half(machine: &Machine, memory: &[u8]) -> bool {
    machine.pc % 2 == 0 && fetch(&mut machine.clone(), memory).is_ok_and(|(word, length)| length == HALF && meaning(word, length).is_some())
}

#[test]
fn other_fetches_are_noticed() {
    let faults: [fn(&mut Machine, &mut [u8]) -> (u64, u64); 5] = [
        // pc + 4 after a half-word
        |m, bytes| {
            let (half, pc) = (at_half(m, bytes), m.pc);
            let answer = step(m, bytes);
            if half && m.pc == pc + 2 {
                m.pc = pc + 4;
            }
            answer
        },
        // all four bytes are asked of a half-word
        |m, bytes| if at_half(m, bytes) && m.pc + 4 > bytes.len() as u64 { (12, bytes.len() as u64) } else { step(m, bytes) },
        // 10 asks for a multiple of 4
        |m, bytes| if m.pc % 4 == 2 { (10, 0) } else { step(m, bytes) },
        // jumps get 15
        |m, bytes| {
            let before = *m;
            match step(m, bytes) {
                (0, 0) if m.pc % 4 == 2 && m.pc.abs_diff(before.pc) > 4 => {
                    *m = before;
                    (15, 0)
                }
                answer => answer,
            }
        },
        // a word of a longer format is told before its second half is asked about
        |m, bytes| match step(&mut m.clone(), &mut bytes.to_vec()) {
            (11 | 12, _) if m.pc % 2 == 0 && bytes.get(m.pc as usize).is_some_and(|byte| byte % 32 == 31) => (13, 0),
            _ => step(m, bytes),
        },
    ];
    for (n, fault) in faults.into_iter().enumerate() {
        let mut counts = Counts::default();
        for round in 0..7 {
            fetches::compare(&Oracle, &Bent(fault), &mut Supply::new(round), round as usize, &mut counts);
        }
        assert!(counts.differing > 0, "fault {n}");
    }
}

/// Locked guests with half-words go on for a while: the isolation experiment meets them.
#[test]
fn locked_worlds_have_half_words() {
    let (mut halves, mut at_two) = (0, 0);
    for seed in 0..200 {
        let (mut machine, mut bytes) = Supply::new(seed).locked_world();
        for _ in 0..100 {
            let (pc, half) = (machine.pc, at_half(&machine, &bytes));
            if step(&mut machine, &mut bytes).0 != 0 {
                break;
            }
            halves += half as u32;
            at_two += (!half && pc % 4 == 2) as u32;
        }
    }
    assert!(halves > 1000 && at_two > 100, "{halves} {at_two}");
}

//! Readable, writable and executable bytes against their definition, and the
//! isolation experiment on the oracle and on engines that leak.

use oracle::compare::{h_words_unmet, isolation, rounds, Counts, Engine, Oracle, H_ROUNDS};
use oracle::instruction::{Instruction, LOAD_TABLE, STORE_TABLE};
use oracle::machine::EXPLICIT;
use oracle::reach::{executable, readable, writable};
use oracle::region::{address, refusal, Access, Op, Place};
use oracle::step::data_access;
use oracle::supply::Supply;
use oracle::Machine;

/// Is the byte one of the bytes of some h-prefixed access, and does that byte
/// pass? Tried for every region, immediate, width and byte number; of the values
/// of rs1 exactly one puts that byte there.
fn h_reach(machine: &Machine, op: Op, byte: u64) -> bool {
    EXPLICIT.iter().any(|region| h_reach_through(*region as u64, machine, op, byte))
}

fn h_reach_through(region: u64, machine: &Machine, op: Op, byte: u64) -> bool {
    let mut machine = *machine;
    let base = machine.regions[region as usize - 1].base;
    for offset in -2048..2048 {
        let words: Vec<Instruction> = match op {
            Op::Load => LOAD_TABLE.iter().map(|row| Instruction::HLoad { kind: row.0, region, rd: 1, rs1: 5, offset }).collect(),
            _ => STORE_TABLE.iter().map(|row| Instruction::HStore { kind: row.0, region, rs1: 5, rs2: 6, offset }).collect(),
        };
        for word in words {
            for i in 0..data_access(&machine, &word).unwrap().size {
                machine.x[5] = byte.wrapping_sub(base).wrapping_add_signed(-offset).wrapping_sub(i);
                let access = data_access(&machine, &word).unwrap();
                assert_eq!(address(&machine, &access, i), byte);
                if refusal(&machine, &access, i).is_none() {
                    return true;
                }
            }
        }
    }
    false
}

/// Likewise for an ordinary access: rs1 is free, so some access has the byte
/// as byte i, for each width; all judge it alike.
fn ordinary_reach(machine: &Machine, op: Op, byte: u64) -> bool {
    let mut found = false;
    for size in [1u64, 2, 4, 8] {
        for i in 0..size {
            let access = Access { op, place: Place::Implicit { address: byte.wrapping_sub(i) }, size };
            found |= refusal(machine, &access, i).is_none();
        }
    }
    found
}

fn fetch_reach(machine: &Machine, byte: u64) -> bool {
    (0..4u64).any(|i| {
        let pc = byte.wrapping_sub(i);
        let access = Access { op: Op::Fetch, place: Place::Implicit { address: pc }, size: 4 };
        pc % 4 == 0 && refusal(machine, &access, i).is_none()
    })
}

#[test]
fn reach_is_as_defined() {
    let mut supply = Supply::new(5);
    let mut seen = [[0u32; 2]; 3];
    for round in 0..60 {
        let mut machine = supply.locked_machine(4096);
        if round % 3 == 0 {
            machine.regions[0] = oracle::Region { base: supply.below(4096), bound: 2040 + supply.below(30), permission: 3 };
        }
        let region = machine.regions[supply.below(10) as usize];
        for _ in 0..6 {
            let near = supply.below(9).wrapping_sub(4);
            let start = [0, 4096, region.base, region.base.wrapping_add(region.bound), region.base.wrapping_add(2054), supply.below(5000)];
            let byte = supply.pick(&start).wrapping_add(near);
            let r = ordinary_reach(&machine, Op::Load, byte) || h_reach(&machine, Op::Load, byte);
            let w = ordinary_reach(&machine, Op::Store, byte) || h_reach(&machine, Op::Store, byte);
            let x = fetch_reach(&machine, byte);
            assert_eq!(readable(&machine, byte), r);
            assert_eq!(writable(&machine, byte), w);
            assert_eq!(executable(&machine, byte), x);
            seen[0][r as usize] += 1;
            seen[1][w as usize] += 1;
            seen[2][x as usize] += 1;
        }
    }
    assert!(seen.iter().all(|pair| pair[0] > 20 && pair[1] > 20), "{seen:?}");
}

/// All bytes of a region larger than an immediate can express, and no others.
#[test]
fn reach_ends_with_the_region() {
    for (base, bound, large) in [(0x1000, 5000, 0), (0, 2054, 0), (0, 2055, 0), (0x1234, 1, 0), (0x10000, 0x30000, 8), (0, 1 << 48, 8)] {
        for permission in 0..4 {
            let mut machine = Machine { mode: 1, options: 1, ..Machine::default() };
            machine.regions[0] = oracle::Region { base, bound, permission: permission | large };
            let places = [0, 1, 2046, 2047, 2048, 2053, 2054, 2055, 2056, 4095, 4096, bound - 1, bound, bound + 1, u64::MAX, u64::MAX - 2047];
            for place in places {
                let (byte, inside) = (base.wrapping_add(place), place < bound);
                let told = (inside && permission & 1 == 1, inside && permission & 2 == 2);
                assert_eq!((readable(&machine, byte), writable(&machine, byte)), told, "{base:x} {bound:x} {place:x}");
                assert_eq!((h_reach(&machine, Op::Load, byte), h_reach(&machine, Op::Store, byte)), told);
                assert!(!executable(&machine, byte));
            }
        }
    }
    // a region that breaks its rule reaches nothing
    let mut machine = Machine { mode: 1, options: 1, ..Machine::default() };
    for (base, bound, permission) in [(0x1000, 0, 3), ((1 << 32) - 8, 16, 3), (0, 0x18000, 11), (1 << 48, 0x10000, 11), (u64::MAX - 7, 8, 3)] {
        machine.regions[0] = oracle::Region { base, bound, permission };
        for place in [0, 1, 7, 4095] {
            let byte = base.wrapping_add(place);
            assert!(!readable(&machine, byte) && !writable(&machine, byte));
            assert!(!h_reach(&machine, Op::Load, byte) && !h_reach(&machine, Op::Store, byte));
        }
    }
}

#[test]
fn holds_of_the_oracle() {
    let mut counts = Counts::default();
    rounds(&Oracle, &Oracle, 77, 40, &mut counts);
    assert!(counts.differences.is_empty(), "{:?}", counts.differences);
    assert!(counts.isolation_steps > 1000 && counts.isolation_differing > 50 && counts.isolation_inside > 50);
    // Runs that store, few that are refused with 4.
    let refused = counts.isolation_stops[&4];
    assert!(counts.isolation_stored > 50 && refused > 0 && refused * 10 < 8 * 40, "{:?}", counts.isolation_stops);
}

/// The fewest rounds that ask for it meet every class of h-words, whatever the seed.
#[test]
fn every_class_of_h_words_is_met() {
    for seed in 0..10 {
        let mut counts = Counts::default();
        rounds(&Oracle, &Oracle, 100 + seed, H_ROUNDS, &mut counts);
        assert_eq!(h_words_unmet(&counts), Vec::<String>::new());
    }
    // Each is asked for: 18 of all eleven words, 2 that a byte cannot have of eight.
    assert_eq!(h_words_unmet(&Counts::default()).len(), 18 * 11 + 2 * 8);
}

/// Runs of the isolation experiment complete h-words past what an immediate reaches.
#[test]
fn worlds_reach_far() {
    let mut supply = Supply::new(12);
    let (mut loads, mut stores) = (0, 0);
    for _ in 0..600 {
        let (mut machine, mut memory) = supply.steady_world();
        for _ in 0..100 {
            let before = machine;
            let word = memory.get(machine.pc as usize..machine.pc as usize + 4).map_or(0, |b| u32::from_le_bytes(b.try_into().unwrap()));
            if oracle::step(&mut machine, &mut memory).0 != 0 {
                break;
            }
            let access = oracle::decode(word).and_then(|word| data_access(&before, &word));
            if let Some(Access { op, place: Place::Explicit { offset: 2055.., .. }, .. }) = access {
                *(if op == Op::Load { &mut loads } else { &mut stores }) += 1;
            }
        }
    }
    assert!(loads > 50 && stores > 50, "{loads} loads, {stores} stores");
}

/// The oracle with one more effect after each run.
struct Leaky(fn(&mut Machine, &mut [u8]));

impl Engine for Leaky {
    fn title(&self) -> String {
        "leaky".to_string()
    }
    fn decode_encode(&self, _word: u32) -> Option<(u64, u32)> {
        None
    }
    fn step(&self, _machine: &mut Machine, _memory: &mut [u8]) -> Option<(u64, u64)> {
        None
    }
    fn run(&self, machine: &mut Machine, memory: &mut [u8], budget: u64) -> Option<(u64, u64, u64)> {
        let answer = oracle::run(machine, memory, budget);
        (self.0)(machine, memory);
        Some(answer)
    }
    fn resume(&self, _machine: &mut Machine, _value: u64) -> Option<u64> {
        None
    }
    fn respond(&self, _sheet: &[u8]) -> Option<Vec<u8>> {
        None
    }
}

fn caught(effect: fn(&mut Machine, &mut [u8])) -> bool {
    let mut counts = Counts::default();
    let mut supply = Supply::new(9);
    for _ in 0..50 {
        let (machine, one) = supply.locked_world();
        let two = supply.twin(&machine, &one);
        isolation(&Leaky(effect), &machine, &one, &two, 100, &mut counts);
    }
    !counts.differences.is_empty()
}

#[test]
fn leaks_are_caught() {
    assert!(!caught(|_, _| {}));
    assert!(caught(|machine, memory| machine.x[31] = memory[memory.len() - 1] as u64));
    assert!(caught(|machine, memory| machine.fault.address = memory.iter().map(|b| *b as u64).sum()));
    assert!(caught(|_, memory| memory[0] ^= 1));
    assert!(caught(|_, memory| memory[1] = memory[memory.len() - 1]));
}

/// The oracle, which does not ask 4: a locked run is made as an unlocked one.
struct Unasked;

impl Engine for Unasked {
    fn title(&self) -> String {
        "unasked".to_string()
    }
    fn decode_encode(&self, _word: u32) -> Option<(u64, u32)> {
        None
    }
    fn step(&self, _machine: &mut Machine, _memory: &mut [u8]) -> Option<(u64, u64)> {
        None
    }
    fn run(&self, machine: &mut Machine, memory: &mut [u8], budget: u64) -> Option<(u64, u64, u64)> {
        machine.options -= 1;
        let answer = oracle::run(machine, memory, budget);
        machine.options += 1;
        Some(answer)
    }
    fn resume(&self, _machine: &mut Machine, _value: u64) -> Option<u64> {
        None
    }
    fn respond(&self, _sheet: &[u8]) -> Option<Vec<u8>> {
        None
    }
}

/// A guest that stores into its own code is told by the executable bytes alone: they are writable, and the two memories
/// agree on them before and after.
#[test]
fn stored_code_is_caught() {
    let world = |permission: u64, word: u32| {
        let mut machine = Machine { mode: 1, options: 1, ..Machine::default() };
        machine.regions[0] = oracle::Region { base: 0, bound: 16, permission };
        machine.regions[2] = oracle::Region { base: 0, bound: !15, permission: 4 };
        let mut bytes = vec![0; 64];
        bytes[..4].copy_from_slice(&word.to_le_bytes());
        (machine, bytes)
    };
    // hsb x0 at 0, its own first byte; h-load of it
    for (permission, word, told) in [(3, 0x0000_002b, true), (2, 0x0000_002b, true), (1, 0x0000_000b, false)] {
        let (machine, one) = world(permission, word);
        let two = Supply::new(3).twin(&machine, &one);
        let mut counts = Counts::default();
        isolation(&Unasked, &machine, &one, &two, 1, &mut counts);
        assert_eq!(counts.differences.iter().any(|text| text.contains("executable and changed")), told, "{:?}", counts.differences);
        let mut counts = Counts::default();
        isolation(&Oracle, &machine, &one, &two, 1, &mut counts);
        assert!(counts.differences.is_empty());
        assert_eq!(counts.isolation_stops.contains_key(&4), told);
    }
}

/// A run that would leave writable code in locked HFI mode is told.
#[test]
fn widened_regions_are_caught() {
    assert!(caught(|machine, _| {
        if machine.mode == 1 {
            machine.regions[1] = oracle::Region { base: 0, bound: !0xfff, permission: 3 };
        }
    }));
}

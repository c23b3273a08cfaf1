//! Directed tests of questions 1 to 21, in the order of document 01; question 8
//! as Job 6 of document 02 has split it (tests/hfi_rules.rs has all of it).

mod common;
use common::*;
use oracle::instruction::*;
use oracle::machine::well_formed;
use oracle::region::{implicit_rule, large_rule, small_rule};
use oracle::*;

#[test]
fn one_memory_too_long() {
    let limit = 16_777_216;
    let bytes = memory(limit + 1, 0, &[addi(5, 0, 1)]);
    stops(outside(), &bytes, 1, 0);
    // 1 comes before 2 and 3
    let mut ill = Machine { mode: 2, ..outside() };
    let mut long = bytes.clone();
    assert_eq!(run(&mut ill, &mut long, ALL), (1, 0, 0));
    assert_eq!(step(&mut ill, &mut long), (1, 0));
    // the limit itself is fine
    let mut good = bytes[..limit].to_vec();
    assert_eq!(step(&mut outside(), &mut good), (0, 0));
}

#[test]
fn two_budget() {
    let mut bytes = memory(64, 0, &[jal(0, 0)]);
    let mut machine = outside();
    assert_eq!(run(&mut machine, &mut bytes, 1_000_001), (2, 0, 0));
    assert_eq!(run(&mut machine, &mut bytes, ALL), (2, 0, 0));
    assert_eq!(machine, outside());
    // 2 before 3
    let mut ill = Machine { options: 16, ..outside() };
    assert_eq!(run(&mut ill, &mut bytes, 1_000_001), (2, 0, 0));
    assert_eq!(run(&mut ill, &mut bytes, 1_000_000), (3, 0, 0));
    assert_eq!(run(&mut machine, &mut bytes, 1_000_000), (21, 1_000_000, 0));
}

#[test]
fn three_well_formed() {
    let bytes = memory(64, 0, &[addi(5, 0, 1)]);
    let good = outside();
    assert!(well_formed(&good));
    let mut ill: Vec<Machine> = Vec::new();
    let mut fine: Vec<Machine> = Vec::new();
    let mut change = |test: bool, edit: &dyn Fn(&mut Machine)| {
        let mut machine = good;
        edit(&mut machine);
        if test {
            fine.push(machine)
        } else {
            ill.push(machine)
        }
    };
    change(false, &|m| m.x[0] = 1);
    change(true, &|m| m.x[31] = ALL);
    change(true, &|m| m.mode = 1);
    change(false, &|m| m.mode = 2);
    change(true, &|m| m.reason = 2);
    change(false, &|m| m.reason = 3);
    change(true, &|m| m.options = 15);
    change(false, &|m| m.options = 16);
    change(false, &|m| m.options = 1 << 32);
    for place in 0..64 {
        change(![0, 1, 62, 63].contains(&place), &|m| m.handler = 1 << place);
        change(place <= 3, &|m| m.selector = 1 << place);
        for number in [1, 4, 5, 6] {
            change([0, 1, 3].contains(&place), &|m| m.regions[number - 1].permission = 1 << place);
        }
        for number in [2, 7, 8, 9] {
            change([0, 1].contains(&place), &|m| m.regions[number - 1].permission = 1 << place);
        }
        for number in [3, 10] {
            change(place == 2, &|m| m.regions[number - 1].permission = 1 << place);
        }
        change(true, &|m| m.exit_pc = 1 << place);
        change(true, &|m| m.fault.address = 1 << place);
        change(true, &|m| m.regions[1].base = 1 << place);
        change(true, &|m| m.regions[2].bound = 1 << place);
    }
    change(true, &|m| m.selector = 10);
    change(false, &|m| m.selector = 11);
    change(true, &|m| m.fault.occurred = 1);
    change(false, &|m| m.fault.occurred = 2);
    change(true, &|m| m.fault.region = 10);
    change(false, &|m| m.fault.region = 11);
    change(true, &|m| m.fault.op = 3);
    change(false, &|m| m.fault.op = 4);
    change(true, &|m| m.pc = ALL);
    for machine in &fine {
        assert!(well_formed(machine));
    }
    for machine in ill {
        assert!(!well_formed(&machine));
        stops(machine, &bytes, 3, 0);
        let mut after = machine;
        assert_eq!(run(&mut after, &mut bytes.clone(), 0), (3, 0, 0));
        assert_eq!(resume(&mut after, 9), 3);
        assert_eq!(after, machine);
    }
}

#[test]
fn four_pc_alignment() {
    let bytes = memory(64, 0, &[addi(5, 0, 1), addi(5, 0, 1)]);
    for pc in [1, 3, 5, 7, 63, 0x1001, ALL, ALL - 2] {
        stops(Machine { pc, ..outside() }, &bytes, 10, 0);
        stops(Machine { pc, ..inside() }, &bytes, 10, 0); // before 11
    }
    // A multiple of 2 passes: at 2 stands the upper half of the first word.
    let (after, _) = completes(Machine { pc: 4, ..outside() }, &bytes);
    assert_eq!((after.pc, after.x[5]), (8, 1));
    let (after, _) = completes(Machine { pc: 2, ..outside() }, &memory(64, 0, &[0x0085_0000]));
    assert_eq!((after.pc, after.x[1]), (4, 1));
    stops(Machine { pc: 0x1002, ..outside() }, &bytes, 12, 0x1002);
}

#[test]
fn five_fetch() {
    let bytes = memory(0x2000, 0, &[addi(5, 0, 1)]);
    // no match: region 0
    faults(Machine { pc: 0x1000, ..inside() }, &bytes, 11, 0, 3, 0x1000);
    // a match without permission: region 3
    let mut machine = inside();
    machine.regions[2].permission = 0;
    faults(machine, &bytes, 11, 3, 3, 0);
    // a zero or broken region matches nothing
    machine.regions[2] = Region::default();
    faults(machine, &bytes, 11, 0, 3, 0);
    machine.regions[2] = Region { base: 8, bound: 0xffff_ffff_ffff_fff0, permission: 4 };
    faults(machine, &bytes, 11, 0, 3, 0);
    // two bytes of code at 4: the first refused byte of a long word is 6
    machine.regions[2] = Region { base: 4, bound: 0xffff_ffff_ffff_fffe, permission: 4 };
    faults(Machine { pc: 4, ..machine }, &memory(64, 4, &[addi(5, 0, 1)]), 11, 0, 3, 6);
    // code in the data region's place only: region 2 is not asked
    let mut data_only = inside();
    data_only.regions[2] = Region::default();
    faults(Machine { pc: 0x1000, ..data_only }, &bytes, 11, 0, 3, 0x1000);
    // outside HFI mode regions are not consulted
    let (after, _) = completes(Machine { mode: 0, ..data_only }, &bytes);
    assert_eq!(after.x[5], 1);
    // 11 before 12
    faults(Machine { pc: 0x4000, ..inside() }, &bytes, 11, 0, 3, 0x4000);
    faults(Machine { pc: ALL - 3, ..inside() }, &bytes, 11, 0, 3, ALL - 3);
}

#[test]
fn six_fetch_absent() {
    let mut bytes = memory(10, 0, &[addi(5, 0, 1), addi(5, 0, 1)]);
    bytes[8] = 0x13; // the first half of a long word
    stops(Machine { pc: 8, ..outside() }, &bytes, 12, 10);
    stops(Machine { pc: 12, ..outside() }, &bytes, 12, 12);
    stops(Machine { pc: 8, ..inside() }, &bytes, 12, 10);
    stops(Machine { pc: ALL - 3, ..outside() }, &bytes, 12, ALL - 3);
    stops(outside(), &[], 12, 0);
    stops(outside(), &[0x13, 0, 0], 12, 3);
}

#[test]
fn seven_illegal_words() {
    let illegal: Vec<u32> = vec![
        0, ALL as u32, 0x0000_100f, // FENCE.I
        0xc000_1073, 0x0000_2073, // CSR words
        0x1050_0073, 0x3020_0073, 0x0020_0073, 0x0000_00f3, 0x0000_8073, 0x0010_00f3, 0x0010_8073, // SYSTEM
        0x0200_101b, 0x0200_501b, 0x4200_501b, 0x2000_101b, // W shifts with bit 25 or others
        0x4000_1013, 0x0400_1013, 0x0400_5013, 0x8000_5013, 0x4400_5013, // 64-bit shifts
        0x0000_201b, 0x0000_301b, 0x0000_701b, // funct3 of OP-IMM-32
        0x0000_2067, 0x0000_1067, 0x0000_7067, // JALR
        0x0000_7003, 0x0000_4023, 0x0000_7023, // loads and stores
        0x0000_2063, 0x0000_3063, // branches
        0x0000_700b, 0x0000_402b, 0x0000_502b, 0x0000_602b, 0x0000_702b, // h-words
        0x4000_1033, 0x4000_2033, 0x4000_7033, 0x4000_103b, 0x0000_203b, // OP
        0x0200_103b, 0x0200_203b, 0x0200_303b, 0x0400_0033, 0x0600_0033, 0x4200_0033, 0x4200_503b, 0x8200_0033, // beside RV64M
        0x0000_105b, 0x0000_705b, 0x1a00_005b, 0xfe00_005b, // 5b: funct3, funct7 above 12
        0x0000_002f, 0x0000_0007, 0x0000_0027, 0x0000_0053, 0x0000_0043, 0x0000_007f,
    ];
    for code in illegal {
        assert_eq!(decode(code), None, "{code:08x}");
        stops(outside(), &memory(64, 0, &[code]), 13, 0);
        stops(inside(), &memory(64, 0, &[code]), 13, 0);
    }
    // any low two bits but both ones
    for low in 0..3 {
        assert_eq!(decode(addi(5, 0, 1) - 3 + low), None);
    }
}

/// Each row of the 5b table: which of rd, rs1, rs2 may be non-zero.
#[test]
fn seven_hfi_table() {
    let mut legal = 0;
    for funct7 in 0..128u32 {
        for funct3 in 0..8u32 {
            for rd in 0..32u32 {
                for rs1 in 0..32u32 {
                    for rs2 in 0..32u32 {
                        let code = funct7 << 25 | rs2 << 20 | rs1 << 15 | funct3 << 12 | rd << 7 | 0x5b;
                        let expected = funct3 == 0
                            && match funct7 {
                                0 => rd == 0 && rs2 == 0,
                                1 => rd == 0,
                                2 | 12 => rd == 0 && rs1 == 0 && rs2 == 0,
                                3 | 4 | 6 | 8 | 10 => rd == 0 && rs2 == 0,
                                5 | 7 | 9 | 11 => rs1 == 0 && rs2 == 0,
                                _ => false,
                            };
                        assert_eq!(decode(code).is_some(), expected);
                        legal += expected as u32;
                    }
                }
            }
        }
    }
    assert_eq!(legal, 1346);
}

#[test]
fn seven_fence_and_hints_are_legal() {
    for code in [0x0000_000fu32, 0x0ff0_000f, 0x8330_000f, 0x0100_000f, 0xffff_8f8f, 0x0000_0013, 0x0000_0033, 0x0000_0037]
    {
        let (after, _) = completes(Machine { ..outside() }, &memory(64, 0, &[code]));
        assert_eq!(after, Machine { pc: 4, ..outside() });
    }
}

#[test]
fn eight_enter_and_exit() {
    let enter = memory(64, 0, &[hfi(HfiKind::Enter, 0, 5, 0)]);
    let jump = memory(64, 0, &[hfi(HfiKind::EnterJump, 0, 5, 6)]);
    let exit = memory(64, 0, &[hfi(HfiKind::Exit, 0, 0, 0)]);
    for options in 0..16 {
        stops(Machine { options, ..inside() }, &enter, 23, 0);
        stops(Machine { options, ..inside() }, &jump, 23, 0);
        stops(Machine { options, ..outside() }, &exit, 24, 0);
    }
    // an options operand above 15, the whole register
    for operand in [16, 0x100, 0x1_0000_0001, ALL, 1 << 63] {
        let mut machine = outside();
        machine.x[5] = operand;
        stops(machine, &enter, 14, 0);
        stops(machine, &jump, 14, 0);
        machine.x[6] = 2; // 14 before 15
        stops(machine, &jump, 14, 0);
        // in HFI mode 23 before both
        let mut machine = inside();
        (machine.x[5], machine.x[6]) = (operand, 2);
        stops(machine, &enter, 23, 0);
        stops(machine, &jump, 23, 0);
        stops(Machine { options: 1, ..machine }, &jump, 23, 0);
    }
}

#[test]
fn eight_h_words_outside() {
    for (kind, _) in LOAD_TABLE {
        stops(outside(), &memory(64, 0, &[hload(kind, 5, 0, 0)]), 14, 0);
    }
    for (kind, _) in STORE_TABLE {
        stops(outside(), &memory(64, 0, &[hstore(kind, 5, 0, 0)]), 14, 0);
    }
}

fn register_of_kind(kind: HfiKind) -> (u64, u64) {
    let row = HFI_TABLE.iter().find(|row| row.0 == kind).unwrap();
    (if row.1 { 6 } else { 0 }, if row.2 { 5 } else { 0 })
}

#[test]
fn eight_locked_and_unlocked() {
    for (kind, ..) in HFI_TABLE {
        let (rd, rs1) = register_of_kind(kind);
        let bytes = memory(64, 0, &[hfi(kind, rd, rs1, 0)]);
        let mut shut = locked();
        shut.selector = 1;
        shut.x[5] = 1;
        let mut open = Machine { options: 14, ..shut };
        let mut off = Machine { mode: 0, ..shut };
        match kind {
            HfiKind::Enter | HfiKind::EnterJump => {
                stops(shut, &bytes, 23, 0);
                stops(open, &bytes, 23, 0);
                assert_eq!(step(&mut off, &mut bytes.clone()), (0, 0));
            }
            HfiKind::Exit => {
                assert_eq!(step(&mut shut, &mut bytes.clone()), (0, 0));
                assert_eq!(step(&mut open, &mut bytes.clone()), (0, 0));
                stops(off, &bytes, 24, 0);
            }
            HfiKind::SetHandler => {
                stops(shut, &bytes, 25, 0);
                stops(open, &bytes, 25, 0);
                assert_eq!(step(&mut off, &mut bytes.clone()), (0, 0));
            }
            _ => {
                stops(shut, &bytes, 25, 0);
                assert_eq!(step(&mut open, &mut bytes.clone()), (0, 0));
                assert_eq!(step(&mut off, &mut bytes.clone()), (0, 0));
            }
        }
    }
}

#[test]
fn eight_selection() {
    let select = memory(64, 0, &[hfi(HfiKind::Select, 0, 5, 0)]);
    for operand in [0, 11, 12, 16, 0x1_0000_0001, ALL] {
        let mut machine = outside();
        machine.x[5] = operand;
        stops(machine, &select, 14, 0);
        let mut machine = locked();
        machine.x[5] = operand;
        stops(machine, &select, 25, 0);
        stops(Machine { options: 14, ..machine }, &select, 14, 0);
    }
    for operand in 1..=10 {
        let mut machine = outside();
        machine.x[5] = operand;
        assert_eq!(completes(machine, &select).0.selector, operand);
    }
    for kind in [
        HfiKind::SetBase,
        HfiKind::GetBase,
        HfiKind::SetBound,
        HfiKind::GetBound,
        HfiKind::SetPermission,
        HfiKind::GetPermission,
    ] {
        let (rd, rs1) = register_of_kind(kind);
        let bytes = memory(64, 0, &[hfi(kind, rd, rs1, 0)]);
        stops(outside(), &bytes, 14, 0);
        stops(inside(), &bytes, 14, 0);
        stops(locked(), &bytes, 25, 0);
        // a get into x0 still asks
        if rd != 0 {
            stops(outside(), &memory(64, 0, &[hfi(kind, 0, 0, 0)]), 14, 0);
        }
    }
    // handler and reset need no selection
    completes(outside(), &memory(64, 0, &[hfi(HfiKind::SetHandler, 0, 5, 0)]));
    completes(outside(), &memory(64, 0, &[hfi(HfiKind::GetHandler, 5, 0, 0)]));
    completes(outside(), &memory(64, 0, &[hfi(HfiKind::Reset, 0, 0, 0)]));
}

#[test]
fn eight_permission_bits() {
    let bytes = memory(64, 0, &[hfi(HfiKind::SetPermission, 0, 5, 0)]);
    for selector in 1..=10u64 {
        for place in 0..64 {
            let mut machine = outside();
            machine.selector = selector;
            machine.x[5] = 1 << place;
            let has = match selector {
                1 | 4 | 5 | 6 => [0, 1, 3].contains(&place),
                2 | 7 | 8 | 9 => [0, 1].contains(&place),
                _ => place == 2,
            };
            if has {
                let (after, _) = completes(machine, &bytes);
                assert_eq!(after.regions[selector as usize - 1].permission, 1 << place);
            } else {
                stops(machine, &bytes, 14, 0);
                let mut machine = Machine { selector, ..locked() };
                machine.x[5] = 1 << place;
                stops(machine, &bytes, 25, 0);
                stops(Machine { options: 0, ..machine }, &bytes, 14, 0);
            }
        }
    }
}

#[test]
fn nine_targets() {
    // a taken branch and JAL to any multiple of 2
    for (code, pc, link) in [(branch(BranchKind::Beq, 0, 0, 6), 6, 0), (jal(1, 6), 6, 4), (jal(0, -2), ALL - 1, 0), (jal(1, 8), 8, 4)] {
        let (after, _) = completes(outside(), &memory(64, 0, &[code]));
        assert_eq!((after.pc, after.x[1]), (pc, link));
    }
    // a branch not taken
    let (after, _) = completes(outside(), &memory(64, 0, &[branch(BranchKind::Bne, 0, 0, 6)]));
    assert_eq!(after.pc, 4);
    // JALR clears bit 0
    let mut machine = outside();
    for (value, pc) in [(8, 8), (9, 8), (10, 10), (11, 10), (ALL, ALL - 1)] {
        machine.x[5] = value;
        let (after, _) = completes(machine, &memory(64, 0, &[jalr(1, 5, 0)]));
        assert_eq!((after.pc, after.x[1]), (pc, 4));
    }
    // enter with jump: bit 0 counts
    machine.x[5] = 1;
    for target in [1, 3, 5, ALL] {
        machine.x[6] = target;
        stops(machine, &memory(64, 0, &[hfi(HfiKind::EnterJump, 0, 5, 6)]), 15, 0);
    }
    for target in [2, 6, 0x4000_0000, 0x4000_0002, ALL - 1] {
        machine.x[6] = target;
        let (after, _) = completes(machine, &memory(64, 0, &[hfi(HfiKind::EnterJump, 0, 5, 6)]));
        assert_eq!((after.pc, after.mode, after.options), (target, 1, 1));
    }
}

#[test]
fn ten_ordinary_data() {
    let mut machine = inside();
    for (kind, _) in LOAD_TABLE {
        let bytes = memory(0x3000, 0, &[load(kind, 6, 5, 0)]);
        machine.x[5] = 0x1000;
        completes(machine, &bytes);
        machine.x[5] = 0xfff;
        faults(machine, &bytes, 16, 0, 1, 0xfff);
        machine.x[5] = 0x1fff;
        let size = oracle::step::load_size(kind);
        if size == 1 {
            completes(machine, &bytes);
        } else {
            faults(machine, &bytes, 16, 0, 1, 0x2000);
        }
        // a match without read permission: region 2; also into x0
        let mut blind = machine;
        blind.regions[1].permission = 2;
        faults(blind, &bytes, 16, 2, 1, 0x1fff);
        faults(blind, &memory(0x3000, 0, &[load(kind, 0, 5, 0)]), 16, 2, 1, 0x1fff);
    }
    for (kind, _) in STORE_TABLE {
        let bytes = memory(0x3000, 0, &[store(kind, 6, 5, 0)]);
        machine.x[5] = 0x1000;
        completes(machine, &bytes);
        machine.x[5] = 0xfff;
        faults(machine, &bytes, 16, 0, 2, 0xfff);
        machine.x[5] = 0x1fff;
        machine.x[6] = ALL;
        let size = oracle::step::store_size(kind);
        if size == 1 {
            completes(machine, &bytes);
        } else {
            faults(machine, &bytes, 16, 0, 2, 0x2000);
        }
        let mut fixed = machine;
        fixed.regions[1].permission = 1;
        faults(fixed, &bytes, 16, 2, 2, 0x1fff);
    }
    // region 1 is not asked about an ordinary access, region 2 not about an h-word
    machine.x[5] = 0x2000;
    faults(machine, &memory(0x3000, 0, &[load(LoadKind::Byte, 6, 5, 0)]), 16, 0, 1, 0x2000);
    let mut without = inside();
    without.regions[0] = Region::default();
    faults(without, &memory(0x3000, 0, &[hload(LoadKind::Byte, 6, 5, 0)]), 16, 1, 1, 0);
}

#[test]
fn ten_explicit_data() {
    let machine = inside();
    for (kind, _) in LOAD_TABLE {
        let size = oracle::step::load_size(kind) as i64;
        completes(machine, &memory(0x3000, 0, &[hload(kind, 6, 7, 64 - size)]));
        faults(machine, &memory(0x3000, 0, &[hload(kind, 6, 7, 65 - size)]), 16, 1, 1, 0x2040);
        faults(machine, &memory(0x3000, 0, &[hload(kind, 6, 7, -1)]), 16, 1, 1, 0x1fff);
        let mut blind = machine;
        blind.regions[0].permission = 2;
        faults(blind, &memory(0x3000, 0, &[hload(kind, 6, 7, 0)]), 16, 1, 1, 0x2000);
    }
    for (kind, _) in STORE_TABLE {
        let size = oracle::step::store_size(kind) as i64;
        completes(machine, &memory(0x3000, 0, &[hstore(kind, 6, 7, 64 - size)]));
        faults(machine, &memory(0x3000, 0, &[hstore(kind, 6, 7, 65 - size)]), 16, 1, 2, 0x2040);
        faults(machine, &memory(0x3000, 0, &[hstore(kind, 6, 7, -size)]), 16, 1, 2, 0x2000 - size as u64);
        let mut fixed = machine;
        fixed.regions[0].permission = 1;
        faults(fixed, &memory(0x3000, 0, &[hstore(kind, 6, 7, 0)]), 16, 1, 2, 0x2000);
    }
    // rs1 counts (tests/offsets.rs has its edges)
    let mut filled = machine;
    filled.x[7] = 40;
    let mut bytes = memory(0x3000, 0, &[hload(LoadKind::ByteUnsigned, 6, 7, 5)]);
    bytes[0x202d] = 0x5a;
    assert_eq!(completes(filled, &bytes).0.x[6], 0x5a);
    filled.x[7] = ALL;
    faults(filled, &bytes, 16, 1, 1, 0x2004);
    // a broken region refuses the first byte at base + offset modulo 2^64
    let mut broken = machine;
    broken.regions[0] = Region { base: ALL, bound: 16, permission: 3 };
    faults(broken, &memory(0x3000, 0, &[hload(LoadKind::Word, 6, 0, 1)]), 16, 1, 1, 0);
    broken.regions[0] = Region { base: 0, bound: 0, permission: 3 };
    faults(broken, &memory(0x3000, 0, &[hstore(StoreKind::Word, 6, 0, -1)]), 16, 1, 2, ALL);
    // large alone is well formed and grants nothing
    broken.regions[0] = Region { base: 0, bound: 0x10000, permission: 8 };
    faults(broken, &memory(0x3000, 0, &[hload(LoadKind::Byte, 6, 0, 0)]), 16, 1, 1, 0);
    broken.regions[0].permission = 9;
    completes(broken, &memory(0x3000, 0, &[hload(LoadKind::Byte, 6, 0, 2047)]));
}

/// No lower byte is stored before a later one is refused or absent.
#[test]
fn ten_and_eleven_store_whole() {
    let mut machine = inside();
    machine.x[5] = 0x1ffd;
    machine.x[6] = ALL;
    faults(machine, &memory(0x3000, 0, &[store(StoreKind::Double, 6, 5, 0)]), 16, 0, 2, 0x2000);
    let mut off = outside();
    off.x[5] = 0xffd;
    off.x[6] = ALL;
    stops(off, &memory(0x1000, 0, &[store(StoreKind::Double, 6, 5, 0)]), 17, 0x1000);
}

#[test]
fn ten_before_eleven() {
    // byte 0 absent, byte 3 refused: 16
    let mut machine = inside();
    machine.x[5] = 0x1ffd;
    faults(machine, &memory(0x1000, 0, &[load(LoadKind::Double, 6, 5, 0)]), 16, 0, 1, 0x2000);
}

#[test]
fn eleven_absent() {
    let mut off = outside();
    for (start, address) in [(60, 64), (57, 64), (63, 64), (64, 64), (ALL, ALL), (ALL - 6, ALL - 6)] {
        off.x[5] = start;
        stops(off, &memory(64, 0, &[load(LoadKind::Double, 6, 5, 0)]), 17, address);
        stops(off, &memory(64, 0, &[load(LoadKind::Double, 0, 5, 0)]), 17, address);
        stops(off, &memory(64, 0, &[store(StoreKind::Double, 6, 5, 0)]), 17, address);
    }
    off.x[5] = 56;
    completes(off, &memory(64, 0, &[load(LoadKind::Double, 6, 5, 0)]));
    // the sum wraps: 2^64 - 1 + 1 is 0
    off.x[5] = ALL;
    let bytes = memory(64, 0, &[load(LoadKind::WordUnsigned, 6, 5, 1)]);
    assert_eq!(completes(off, &bytes).0.x[6], load(LoadKind::WordUnsigned, 6, 5, 1) as u64);
    // in HFI mode: granted but absent
    let mut machine = inside();
    machine.x[5] = 0x1200;
    stops(machine, &memory(0x1204, 0, &[load(LoadKind::Double, 6, 5, 0)]), 17, 0x1204);
    stops(machine, &memory(0x1204, 0, &[hload(LoadKind::Double, 6, 0, 8)]), 17, 0x2008);
    machine.x[5] = 8;
    stops(machine, &memory(0x200c, 0, &[hload(LoadKind::Double, 6, 5, 0)]), 17, 0x200c);
}

#[test]
fn twelve_ecall() {
    let bytes = memory(64, 0, &[ECALL]);
    stops(outside(), &bytes, 18, 0);
    stops(inside(), &bytes, 18, 0);
    stops(Machine { options: 13, ..inside() }, &bytes, 18, 0);
    stops(Machine { options: 15, ..outside() }, &bytes, 18, 0);
    let machine = Machine { options: 2, handler: 0x40, ..inside() };
    let (after, _) = completes(machine, &bytes);
    assert_eq!(after, Machine { mode: 0, reason: 2, exit_pc: 0, pc: 0x40, ..machine });
    let mut again = machine;
    assert_eq!(run(&mut again, &mut bytes.clone(), 10), (20, 1, 0));
    assert_eq!(again, after);
}

#[test]
fn thirteen_ebreak() {
    let bytes = memory(64, 0, &[EBREAK]);
    stops(outside(), &bytes, 19, 0);
    stops(Machine { options: 15, ..inside() }, &bytes, 19, 0);
}

#[test]
fn twenty_leaving() {
    let bytes = memory(64, 0, &[addi(5, 0, 1), hfi(HfiKind::Exit, 0, 0, 0), addi(6, 0, 1)]);
    let mut machine = Machine { options: 1, ..inside() };
    assert_eq!(run(&mut machine, &mut bytes.clone(), 10), (20, 2, 0));
    assert_eq!((machine.pc, machine.mode, machine.reason, machine.exit_pc, machine.x[6]), (8, 0, 1, 4, 0));
    assert_eq!(machine.options, 1);
    // the leaving step may be the last allowed: 20, not 21
    let mut machine = inside();
    assert_eq!(run(&mut machine, &mut bytes.clone(), 2), (20, 2, 0));
    let mut machine = inside();
    assert_eq!(run(&mut machine, &mut bytes.clone(), 1), (21, 1, 0));
    // redirected exit; the handler may lie anywhere
    let mut machine = Machine { options: 4, handler: 0x3fff_ffff_ffff_fffc, ..inside() };
    assert_eq!(run(&mut machine, &mut bytes.clone(), 10), (20, 2, 0));
    assert_eq!(machine.pc, 0x3fff_ffff_ffff_fffc);
}

#[test]
fn twenty_only_if_begun_inside() {
    // enters, exits and goes on
    let words = [
        hfi(HfiKind::Enter, 0, 5, 0),
        hfi(HfiKind::Exit, 0, 0, 0),
        addi(6, 0, 7),
        ECALL,
    ];
    let mut machine = Machine { mode: 0, ..inside() };
    assert_eq!(run(&mut machine, &mut memory(64, 0, &words), 10), (18, 3, 0));
    assert_eq!((machine.pc, machine.x[6], machine.reason, machine.exit_pc), (12, 7, 1, 4));
}

#[test]
fn twenty_one_budget() {
    let bytes = memory(64, 0, &[jal(0, 0)]);
    for budget in [0, 1, 2, 1000, 1_000_000] {
        let mut machine = inside();
        assert_eq!(run(&mut machine, &mut bytes.clone(), budget), (21, budget, 0));
        assert_eq!(machine, inside());
    }
    // budget 0 asks nothing of the step
    let mut machine = Machine { pc: 1, ..inside() };
    assert_eq!(run(&mut machine, &mut bytes.clone(), 0), (21, 0, 0));
    assert_eq!(run(&mut machine, &mut bytes.clone(), 1), (10, 0, 0));
}

#[test]
fn resuming() {
    let mut machine = Machine { pc: ALL - 3, ..inside() };
    let before = machine;
    assert_eq!(resume(&mut machine, 77), 0);
    let mut expected = Machine { pc: 0, ..before };
    expected.x[10] = 77;
    assert_eq!(machine, expected);
}

#[test]
fn faults_stay_until_entered() {
    // enter clears "occurred" only
    let mut machine = outside();
    machine.fault = Fault { occurred: 1, region: 2, op: 1, address: 0x77 };
    machine.reason = 2;
    machine.exit_pc = 0x88;
    let (after, _) = completes(machine, &memory(64, 0, &[hfi(HfiKind::Enter, 0, 0, 0)]));
    let mut expected = Machine { pc: 4, mode: 1, options: 0, ..machine };
    expected.fault.occurred = 0;
    assert_eq!(after, expected);
    // a completed step and the other stops leave it
    let (after, _) = completes(machine, &memory(64, 0, &[addi(0, 0, 0)]));
    assert_eq!(after.fault, machine.fault);
    stops(machine, &memory(64, 0, &[ECALL]), 18, 0);
}

#[test]
fn setting_and_getting() {
    for selector in 1..=10usize {
        for (set, get, value) in [
            (HfiKind::SetBase, HfiKind::GetBase, ALL),
            (HfiKind::SetBound, HfiKind::GetBound, 0x8000_0000_0000_0001),
            (HfiKind::SetPermission, HfiKind::GetPermission, if selector == 3 || selector == 10 { 4 } else { 3 }),
        ] {
            let mut machine = outside();
            machine.selector = selector as u64;
            machine.x[5] = value;
            let bytes = memory(64, 0, &[hfi(set, 0, 5, 0), hfi(get, 6, 0, 0), hfi(get, 0, 0, 0)]);
            let mut after = machine;
            assert_eq!(run(&mut after, &mut bytes.clone(), 3), (21, 3, 0));
            let mut expected = Machine { pc: 12, ..machine };
            expected.x[6] = value;
            let region = &mut expected.regions[selector - 1];
            match set {
                HfiKind::SetBase => region.base = value,
                HfiKind::SetBound => region.bound = value,
                _ => region.permission = value,
            }
            assert_eq!(after, expected);
        }
    }
    // reset zeroes regions and selector only
    let mut machine = Machine { mode: 0, selector: 2, options: 7, handler: 0x100, ..inside() };
    machine.fault = Fault { occurred: 1, region: 10, op: 2, address: 9 };
    for n in 3..10u64 {
        machine.regions[n as usize] = Region { base: n, bound: n, permission: 0 };
    }
    let (after, _) = completes(machine, &memory(64, 0, &[hfi(HfiKind::Reset, 0, 0, 0)]));
    assert_eq!(after, Machine { pc: 4, selector: 0, regions: [Region::default(); 10], ..machine });
}

#[test]
fn rules_of_implicit_regions() {
    for k in 0..=64u32 {
        let mask = if k == 64 { 0 } else { ALL << k };
        let zero = Region { base: 0, bound: mask, permission: 0 };
        assert_eq!(implicit_rule(&zero), k <= 48, "k {k}");
        if k < 48 {
            let top = Region { base: (1 << 48) - (1 << k), ..zero };
            assert!(implicit_rule(&top));
            assert!(!implicit_rule(&Region { base: 1 << 48, ..zero }));
            if k > 0 {
                assert!(!implicit_rule(&Region { base: 1, ..zero }));
                assert!(!implicit_rule(&Region { base: 1 << (k - 1), ..zero }));
            }
        }
        if k < 63 {
            // a hole in the ones
            assert!(!implicit_rule(&Region { bound: mask & !(1 << 63), ..zero }));
        }
    }
}

#[test]
fn rules_of_explicit_regions() {
    let region = |base, bound| Region { base, bound, permission: 0 };
    let four_gib = 1u64 << 32;
    assert!(!small_rule(&region(0, 0)));
    assert!(small_rule(&region(0, 1)));
    assert!(small_rule(&region(0, four_gib)));
    assert!(!small_rule(&region(0, four_gib + 1)));
    assert!(!small_rule(&region(1, four_gib)));
    assert!(small_rule(&region(four_gib, four_gib)));
    assert!(small_rule(&region(1, four_gib - 1)));
    assert!(small_rule(&region((1 << 48) - 1, 1)));
    assert!(!small_rule(&region(1 << 48, 1)));
    assert!(!small_rule(&region((1 << 48) - 1, 2)));
    assert!(!small_rule(&region(ALL, 1)));
    assert!(!small_rule(&region(0, ALL)));
    assert!(!large_rule(&region(0, 0)));
    assert!(large_rule(&region(0, 65536)));
    assert!(!large_rule(&region(0, 65535)));
    assert!(!large_rule(&region(1, 65536)));
    assert!(!large_rule(&region(32768, 65536)));
    assert!(large_rule(&region(0, 1 << 48)));
    assert!(!large_rule(&region(65536, 1 << 48)));
    assert!(large_rule(&region((1 << 48) - 65536, 65536)));
    assert!(!large_rule(&region(1 << 48, 65536)));
    assert!(!large_rule(&region(ALL - 65535, 65536)));
}

//! The twelve cases A to L of document 01 and its whole example.

mod common;
use common::*;
use oracle::instruction::*;
use oracle::region::{implicit_rule, large_rule, matches, small_rule};
use oracle::*;

#[test]
fn a_addi() {
    let expected = Instruction::Immediate { kind: ImmediateKind::Addi, rd: 10, rs1: 0, value: 5 };
    assert_eq!(decode(0x00500513), Some(expected));
    assert_eq!(encode(&expected), Some(0x00500513));
}

#[test]
fn b_hsb() {
    let expected = Instruction::HStore { kind: StoreKind::Byte, region: 1, rs1: 0, rs2: 10, offset: 3 };
    assert_eq!(decode(0x00a001ab), Some(expected));
    assert_eq!(encode(&expected), Some(0x00a001ab));
}

#[test]
fn c_hfiexit() {
    let expected = Instruction::Hfi { kind: HfiKind::Exit, rd: 0, rs1: 0, rs2: 0 };
    assert_eq!(decode(0x0400005b), Some(expected));
    assert_eq!(encode(&expected), Some(0x0400005b));
    assert_eq!(decode(0x0400015b), None);
}

#[test]
fn d_sixteen_bytes() {
    let region = Region { base: 0, bound: 0xffff_ffff_ffff_fff0, permission: 3 };
    assert!(matches(&region, 0xf));
    assert!(!matches(&region, 0x10));
}

#[test]
fn e_mask_zero() {
    let region = Region { base: 0, bound: 0, permission: 3 };
    assert!(!implicit_rule(&region));
    for address in [0, 1, 0x10, 0xffff_ffff_ffff, 1 << 48, ALL] {
        assert!(!matches(&region, address));
    }
}

#[test]
fn f_base_eight() {
    let region = Region { base: 8, bound: 0xffff_ffff_ffff_fff0, permission: 3 };
    assert!(!implicit_rule(&region));
    for address in 0..64 {
        assert!(!matches(&region, address));
    }
}

fn g_machine() -> Machine {
    let mut machine = inside();
    machine.regions[0] = Region { base: 0x200, bound: 0x10, permission: 3 };
    machine.x[10] = 0x1122_3344_5566_7788;
    machine
}

#[test]
fn g_last_double() {
    let at_eight = memory(4096, 0, &[hstore(StoreKind::Double, 10, 0, 8)]);
    let (after, bytes) = completes(g_machine(), &at_eight);
    assert_eq!(after, Machine { pc: 4, ..g_machine() });
    assert_eq!(bytes[0x208..0x210], [0x88, 0x77, 0x66, 0x55, 0x44, 0x33, 0x22, 0x11]);
    let at_nine = memory(4096, 0, &[hstore(StoreKind::Double, 10, 0, 9)]);
    faults(g_machine(), &at_nine, 16, 1, 2, 0x210);
}

#[test]
fn h_minus_one() {
    let bytes = memory(4096, 0, &[hstore(StoreKind::Double, 10, 0, -1)]);
    faults(g_machine(), &bytes, 16, 1, 2, 0x1ff);
    let bytes = memory(4096, 0, &[hload(LoadKind::Byte, 10, 0, -1)]);
    faults(g_machine(), &bytes, 16, 1, 1, 0x1ff);
}

#[test]
fn i_small_at_the_multiple() {
    assert!(small_rule(&Region { base: 0xffff_ffff, bound: 1, permission: 3 }));
    assert!(!small_rule(&Region { base: 0xffff_ffff, bound: 2, permission: 3 }));
}

#[test]
fn j_large() {
    assert!(large_rule(&Region { base: 0x10000, bound: 0x10000, permission: 11 }));
    assert!(!large_rule(&Region { base: 0x10000, bound: 0x10001, permission: 11 }));
}

#[test]
fn k_handler() {
    let mut machine = outside();
    machine.x[5] = ALL;
    let mut bytes = memory(64, 0, &[hfi(HfiKind::SetHandler, 0, 5, 0), hfi(HfiKind::GetHandler, 6, 0, 0)]);
    assert_eq!(run(&mut machine, &mut bytes, 2), (21, 2, 0));
    assert_eq!(machine.handler, 0x3fff_ffff_ffff_fffc);
    assert_eq!(machine.x[6], 0x3fff_ffff_ffff_fffc);
}

#[test]
fn l_addiw() {
    let mut machine = outside();
    machine.x[5] = 0x7fff_ffff;
    let code = word(Instruction::Immediate { kind: ImmediateKind::Addiw, rd: 6, rs1: 5, value: 1 });
    let (after, _) = completes(machine, &memory(64, 0, &[code]));
    assert_eq!(after.x[6], 0xffff_ffff_8000_0000);
}

#[test]
fn the_whole_example() {
    let input = b"0,5,100,200,10,3,0,0,0,0,fffffffffffffff0,4,a\n0,00500513\n4,00a001ab\n8,0400005b\n";
    assert_eq!(respond(input), b"20,3,100,1,8,0,0,0,0\n10,5\n");
}

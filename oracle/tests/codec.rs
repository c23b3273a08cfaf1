//! Decoding and encoding.

use oracle::instruction::*;

/// Every legal word encodes back to itself, over a spread of words that has
/// each opcode, funct3, funct7 and edge values of the other fields.
#[test]
fn words_round_trip() {
    let edges = [0u32, 1, 2, 15, 16, 30, 31];
    let mut legal = 0u32;
    for opcode in 0..128u32 {
        for funct3 in 0..8u32 {
            for funct7 in 0..128u32 {
                for rd in edges {
                    for rs1 in [0u32, 1, 31] {
                        for rs2 in edges {
                            let code = funct7 << 25 | rs2 << 20 | rs1 << 15 | funct3 << 12 | rd << 7 | opcode;
                            if let Some(instruction) = decode(code) {
                                assert_eq!(encode(&instruction), Some(code), "{code:08x}");
                                legal += 1;
                            }
                        }
                    }
                }
            }
        }
    }
    assert!(legal > 1_000_000);
}

fn good(instruction: Instruction) {
    let code = encode(&instruction).unwrap_or_else(|| panic!("{instruction:?}"));
    assert_eq!(decode(code), Some(instruction));
}

fn bad(instruction: Instruction) {
    assert_eq!(encode(&instruction), None, "{instruction:?}");
}

/// Fields at and beyond the ends of their ranges.
#[test]
fn ranges() {
    for (value, fits) in [(-2049, false), (-2048, true), (-1, true), (2047, true), (2048, false), (i64::MIN, false), (i64::MAX, false), (1 << 32, false)]
    {
        let check = if fits { good } else { bad };
        check(Instruction::Immediate { kind: ImmediateKind::Addi, rd: 1, rs1: 2, value });
        check(Instruction::Immediate { kind: ImmediateKind::Addiw, rd: 1, rs1: 2, value });
        check(Instruction::Load { kind: LoadKind::Double, rd: 1, rs1: 2, offset: value });
        check(Instruction::HLoad { kind: LoadKind::Half, region: 1, rd: 1, rs1: 2, offset: value });
        check(Instruction::Store { kind: StoreKind::Word, rs1: 1, rs2: 2, offset: value });
        check(Instruction::HStore { kind: StoreKind::Byte, region: 6, rs1: 1, rs2: 2, offset: value });
        check(Instruction::Jalr { rd: 1, rs1: 2, offset: value });
    }
    for (offset, fits) in [(-4098, false), (-4097, false), (-4096, true), (-2, true), (-1, false), (0, true), (1, false), (4094, true), (4095, false), (4096, false)]
    {
        let check = if fits { good } else { bad };
        check(Instruction::Branch { kind: BranchKind::Bgeu, rs1: 1, rs2: 2, offset });
    }
    for (offset, fits) in [(-1048578, false), (-1048577, false), (-1048576, true), (-1, false), (1048574, true), (1048575, false), (1048576, false)]
    {
        let check = if fits { good } else { bad };
        check(Instruction::Jal { rd: 31, offset });
    }
    for (amount, long, short) in [(0, true, true), (31, true, true), (32, true, false), (63, true, false), (64, false, false), (1 << 32, false, false)]
    {
        for (kind, _, _, _, width) in SHIFT_TABLE {
            let check = if (width == 6 && long) || (width == 5 && short) { good } else { bad };
            check(Instruction::Shift { kind, rd: 1, rs1: 2, amount });
        }
    }
    for (number, fits) in [(0, true), (31, true), (32, false), (u64::MAX, false)] {
        let check = if fits { good } else { bad };
        check(Instruction::Register { kind: RegisterKind::Sub, rd: number, rs1: 1, rs2: 2 });
        check(Instruction::Register { kind: RegisterKind::Sub, rd: 1, rs1: number, rs2: 2 });
        check(Instruction::Register { kind: RegisterKind::Sraw, rd: 1, rs1: 2, rs2: number });
        check(Instruction::Fence { rd: number, rs1: 0, spare: 0 });
        check(Instruction::Fence { rd: 0, rs1: number, spare: 0 });
        check(Instruction::Hfi { kind: HfiKind::EnterJump, rd: 0, rs1: number, rs2: 0 });
        check(Instruction::Hfi { kind: HfiKind::EnterJump, rd: 0, rs1: 0, rs2: number });
        check(Instruction::Hfi { kind: HfiKind::GetBase, rd: number, rs1: 0, rs2: 0 });
    }
    // Of an h-word: x0 to x15, and the regions 1, 4, 5, 6.
    for (number, fits) in [(0, true), (15, true), (16, false), (31, false), (32, false), (u64::MAX, false)] {
        let check = if fits { good } else { bad };
        check(Instruction::HLoad { kind: LoadKind::Word, region: 4, rd: number, rs1: 2, offset: 0 });
        check(Instruction::HLoad { kind: LoadKind::Word, region: 5, rd: 1, rs1: number, offset: 0 });
        check(Instruction::HStore { kind: StoreKind::Word, region: 6, rs1: number, rs2: 2, offset: 0 });
        check(Instruction::HStore { kind: StoreKind::Word, region: 1, rs1: 1, rs2: number, offset: 0 });
    }
    for region in (0..=12).chain([1 << 32, (1 << 32) + 1, u64::MAX]) {
        let check = if [1, 4, 5, 6].contains(&region) { good } else { bad };
        check(Instruction::HLoad { kind: LoadKind::Byte, region, rd: 1, rs1: 2, offset: 0 });
        check(Instruction::HStore { kind: StoreKind::Double, region, rs1: 1, rs2: 2, offset: 0 });
    }
    for (field, fits) in [(0, true), (0xfffff, true), (0x100000, false), (u64::MAX, false)] {
        let check = if fits { good } else { bad };
        check(Instruction::Upper { kind: UpperKind::Lui, rd: 1, field });
        check(Instruction::Upper { kind: UpperKind::Auipc, rd: 1, field });
    }
    for (spare, fits) in [(0, true), (0xfff, true), (0x1000, false)] {
        let check = if fits { good } else { bad };
        check(Instruction::Fence { rd: 3, rs1: 4, spare });
    }
    for (kind, rd, rs1, rs2) in HFI_TABLE {
        good(Instruction::Hfi { kind, rd: 0, rs1: 0, rs2: 0 });
        (if rd { good } else { bad })(Instruction::Hfi { kind, rd: 31, rs1: 0, rs2: 0 });
        (if rs1 { good } else { bad })(Instruction::Hfi { kind, rd: 0, rs1: 31, rs2: 0 });
        (if rs2 { good } else { bad })(Instruction::Hfi { kind, rd: 0, rs1: 0, rs2: 31 });
    }
}

/// All 2^10 registers of each h-word: "the top bits of two register fields choose the explicit region: rs1's counts 2,
/// that of rd or rs2 counts 1, and 0 to 3 mean 1, 4, 5, 6 ... The remaining four bits name x0 to x15".
#[test]
fn h_word_fields() {
    for rs1 in 0..32u32 {
        for other in 0..32u32 {
            let region = match (rs1 >= 16, other >= 16) {
                (false, false) => 1,
                (false, true) => 4,
                (true, false) => 5,
                (true, true) => 6,
            };
            let (low1, low) = (rs1 as u64 & 15, other as u64 & 15);
            for (kind, funct3) in LOAD_TABLE {
                let code = 0xfff << 20 | rs1 << 15 | (funct3 as u32) << 12 | other << 7 | 0x0b;
                assert_eq!(decode(code), Some(Instruction::HLoad { kind, region, rd: low, rs1: low1, offset: -1 }));
                assert_eq!(decode(code).and_then(|i| encode(&i)), Some(code));
            }
            for (kind, funct3) in STORE_TABLE {
                let code = 0x3f << 25 | other << 20 | rs1 << 15 | (funct3 as u32) << 12 | 31 << 7 | 0x2b;
                assert_eq!(decode(code), Some(Instruction::HStore { kind, region, rs1: low1, rs2: low, offset: 2047 }));
                assert_eq!(decode(code).and_then(|i| encode(&i)), Some(code));
            }
            // Ordinary words keep five bits.
            let code = rs1 << 15 | other << 7 | 0x03;
            let (rd, rs1) = (other as u64, rs1 as u64);
            assert_eq!(decode(code), Some(Instruction::Load { kind: LoadKind::Byte, rd, rs1, offset: 0 }));
        }
    }
}

/// The words of RV64M as GNU binutils 2.40 assembles them.
#[test]
fn rv64m_words() {
    use RegisterKind::*;
    for (code, kind, rd, rs1, rs2) in [
        (0x0262_8533, Mul, 10, 5, 6),
        (0x0231_10b3, Mulh, 1, 2, 3),
        (0x03df_2fb3, Mulhsu, 31, 30, 29),
        (0x0262_b233, Mulhu, 4, 5, 6),
        (0x0294_43b3, Div, 7, 8, 9),
        (0x02c5_d533, Divu, 10, 11, 12),
        (0x02f7_66b3, Rem, 13, 14, 15),
        (0x0328_f833, Remu, 16, 17, 18),
        (0x035a_09bb, Mulw, 19, 20, 21),
        (0x038b_cb3b, Divw, 22, 23, 24),
        (0x03bd_5cbb, Divuw, 25, 26, 27),
        (0x03ee_ee3b, Remw, 28, 29, 30),
        (0x0210_7fbb, Remuw, 31, 0, 1),
    ] {
        let instruction = Instruction::Register { kind, rd, rs1, rs2 };
        assert_eq!(decode(code), Some(instruction));
        assert_eq!(encode(&instruction), Some(code));
        for (number, fits) in [(0, true), (31, true), (32, false), (1 << 32, false), (u64::MAX, false)] {
            let check = if fits { good } else { bad };
            check(Instruction::Register { kind, rd: number, rs1, rs2 });
            check(Instruction::Register { kind, rd, rs1: number, rs2 });
            check(Instruction::Register { kind, rd, rs1, rs2: number });
        }
    }
}

/// All 2^15 registers of each word with funct7 1: decoded and encoded back, or
/// illegal where the manual has no row.
#[test]
fn funct7_one() {
    for (opcode, rows) in [(0x33u32, 0b1111_1111u32), (0x3b, 0b1111_0001)] {
        for funct3 in 0..8u32 {
            for registers in 0..1u32 << 15 {
                let (rd, sources) = (registers & 31, registers >> 5);
                let code = 1 << 25 | sources << 15 | funct3 << 12 | rd << 7 | opcode;
                assert_eq!(decode(code).and_then(|i| encode(&i)), (rows >> funct3 & 1 == 1).then_some(code), "{code:08x}");
            }
        }
    }
}

/// The rows of OP and OP-32 in the manual's listing: funct7 0, 1 and 32.
#[test]
fn other_funct7() {
    for (opcode, rows) in [(0x33u32, [0b1111_1111u32, 0b1111_1111, 0b0010_0001]), (0x3b, [0b0010_0011, 0b1111_0001, 0b0010_0001])] {
        for funct7 in 0..128u32 {
            let row = [0, 1, 32].iter().position(|n| *n == funct7).map_or(0, |n| rows[n]);
            for funct3 in 0..8u32 {
                let code = funct7 << 25 | 6 << 20 | 5 << 15 | funct3 << 12 | 7 << 7 | opcode;
                assert_eq!(decode(code).is_some(), row >> funct3 & 1 == 1, "{code:08x}");
            }
        }
    }
}

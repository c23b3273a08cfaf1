//! Directed calls of document 02, Job 8: half-words, fetches in halves, lengths.
//! The words are those that GNU as makes of the names.

use super::*;

const C_NOP: u32 = 0x0001;
const C_EBREAK: u32 = 0x9002;

/// Before each of `VALUES`: x1, x2, x5, x8, x10, x31.
const BEFORE: [(usize, u64); 6] =
    [(1, 0x101), (2, 0x400), (5, 0x7fff_fff0), (8, 0x9000_0000_0000_0108), (10, 0x8765_4321_0fed_cba9), (31, 0x11f)];

/// Words that write a register, which one, and what; the long ones by Python's whole numbers.
const VALUES: [(&str, u32, usize, u64); 45] = [
    ("c.addi4spn x8, 4", 0x0040, 8, 0x404),
    ("c.addi4spn x15, 1020", 0x1ffc, 15, 0x7fc),
    ("c.addi4spn x10, 340", 0x0ac8, 10, 0x554),
    ("c.addi4spn x10, 680", 0x1528, 10, 0x6a8),
    ("c.addi x5, 31", 0x02fd, 5, 0x8000_000f),
    ("c.addi x5, -32", 0x1281, 5, 0x7fff_ffd0),
    ("c.addi x31, -1", 0x1ffd, 31, 0x11e),
    ("c.addiw x5, 31", 0x22fd, 5, 0xffff_ffff_8000_000f),
    ("c.addiw x5, -32", 0x3281, 5, 0x7fff_ffd0),
    ("c.addiw x31, 0", 0x2f81, 31, 0x11f),
    ("c.li x5, 31", 0x42fd, 5, 0x1f),
    ("c.li x5, -32", 0x5281, 5, 0xffff_ffff_ffff_ffe0),
    ("c.li x31, -1", 0x5ffd, 31, 0xffff_ffff_ffff_ffff),
    ("c.addi16sp 16", 0x6141, 2, 0x410),
    ("c.addi16sp -512", 0x7101, 2, 0x200),
    ("c.addi16sp 496", 0x617d, 2, 0x5f0),
    ("c.addi16sp 336", 0x6171, 2, 0x550),
    ("c.addi16sp 160", 0x610d, 2, 0x4a0),
    ("c.lui x5, 1", 0x6285, 5, 0x1000),
    ("c.lui x5, 1f", 0x62fd, 5, 0x0001_f000),
    ("c.lui x5, fffe0", 0x7281, 5, 0xffff_ffff_fffe_0000),
    ("c.lui x31, fffff", 0x7ffd, 31, 0xffff_ffff_ffff_f000),
    ("c.lui x1, 10", 0x60c1, 1, 0x0001_0000),
    ("c.srli x8, 1", 0x8005, 8, 0x4800_0000_0000_0084),
    ("c.srli x8, 32", 0x9001, 8, 0x9000_0000),
    ("c.srli x8, 63", 0x907d, 8, 1),
    ("c.srai x10, 1", 0x8505, 10, 0xc3b2_a190_87f6_e5d4),
    ("c.srai x10, 32", 0x9501, 10, 0xffff_ffff_8765_4321),
    ("c.srai x10, 63", 0x957d, 10, 0xffff_ffff_ffff_ffff),
    ("c.andi x10, 31", 0x897d, 10, 9),
    ("c.andi x10, -32", 0x9901, 10, 0x8765_4321_0fed_cba0),
    ("c.sub x8, x10", 0x8c09, 8, 0x089a_bcde_f012_355f),
    ("c.xor x8, x10", 0x8c29, 8, 0x1765_4321_0fed_caa1),
    ("c.or x8, x10", 0x8c49, 8, 0x9765_4321_0fed_cba9),
    ("c.and x8, x10", 0x8c69, 8, 0x8000_0000_0000_0108),
    ("c.subw x8, x10", 0x9c09, 8, 0xffff_ffff_f012_355f),
    ("c.addw x8, x10", 0x9c29, 8, 0x0fed_ccb1),
    ("c.sub x8, x8", 0x8c01, 8, 0),
    ("c.slli x5, 1", 0x0286, 5, 0xffff_ffe0),
    ("c.slli x5, 32", 0x1282, 5, 0x7fff_fff0_0000_0000),
    ("c.slli x31, 63", 0x1ffe, 31, 0x8000_0000_0000_0000),
    ("c.mv x5, x31", 0x82fe, 5, 0x11f),
    ("c.mv x31, x1", 0x8f86, 31, 0x101),
    ("c.add x5, x31", 0x92fe, 5, 0x8000_010f),
    ("c.add x31, x31", 0x9ffe, 31, 0x23e),
];

/// Loads with x2 = 400, x8 = 420 and x10 = 430: rd, the address, the bytes.
const LOADS: [(&str, u32, usize, usize, usize); 16] = [
    ("c.lw x9, 0(x8)", 0x4004, 9, 0x420, 4),
    ("c.lw x9, 124(x8)", 0x5c64, 9, 0x49c, 4),
    ("c.lw x15, 64(x10)", 0x413c, 15, 0x470, 4),
    ("c.lw x9, 4(x8)", 0x4044, 9, 0x424, 4),
    ("c.ld x9, 0(x8)", 0x6004, 9, 0x420, 8),
    ("c.ld x9, 248(x8)", 0x7c64, 9, 0x518, 8),
    ("c.ld x15, 64(x10)", 0x613c, 15, 0x470, 8),
    ("c.ld x9, 8(x8)", 0x6404, 9, 0x428, 8),
    ("c.lwsp x5, 0", 0x4282, 5, 0x400, 4),
    ("c.lwsp x5, 252", 0x52fe, 5, 0x4fc, 4),
    ("c.lwsp x31, 148", 0x4fda, 31, 0x494, 4),
    ("c.lwsp x31, 104", 0x5fa6, 31, 0x468, 4),
    ("c.ldsp x5, 0", 0x6282, 5, 0x400, 8),
    ("c.ldsp x5, 504", 0x72fe, 5, 0x5f8, 8),
    ("c.ldsp x31, 328", 0x6fb6, 31, 0x548, 8),
    ("c.ldsp x31, 176", 0x7fca, 31, 0x4b0, 8),
];

/// Stores, likewise: rs2, the address, the bytes.
const STORES: [(&str, u32, usize, usize, usize); 12] = [
    ("c.sw x10, 124(x8)", 0xdc68, 10, 0x49c, 4),
    ("c.sw x10, 68(x8)", 0xc068, 10, 0x464, 4),
    ("c.sd x10, 248(x8)", 0xfc68, 10, 0x518, 8),
    ("c.sd x10, 72(x8)", 0xe428, 10, 0x468, 8),
    ("c.swsp x5, 0", 0xc016, 5, 0x400, 4),
    ("c.swsp x5, 252", 0xdf96, 5, 0x4fc, 4),
    ("c.swsp x31, 148", 0xcb7e, 31, 0x494, 4),
    ("c.swsp x0, 4", 0xc202, 0, 0x404, 4),
    ("c.sdsp x5, 0", 0xe016, 5, 0x400, 8),
    ("c.sdsp x5, 504", 0xff96, 5, 0x5f8, 8),
    ("c.sdsp x31, 328", 0xe6fe, 31, 0x548, 8),
    ("c.sdsp x0, 8", 0xe402, 0, 0x408, 8),
];

/// C.J, C.BEQZ x8 and C.BNEZ x9 by what they add to pc.
const OFFSETS: [(i64, u32, Option<(u32, u32)>); 15] = [
    (-2048, 0xb001, None),
    (2046, 0xaffd, None),
    (-256, 0xb701, Some((0xd001, 0xf081))),
    (254, 0xa8fd, Some((0xcc7d, 0xecfd))),
    (-2, 0xbffd, Some((0xdc7d, 0xfcfd))),
    (2, 0xa009, Some((0xc009, 0xe089))),
    (4, 0xa011, Some((0xc011, 0xe091))),
    (8, 0xa021, Some((0xc401, 0xe481))),
    (16, 0xa801, Some((0xc801, 0xe881))),
    (32, 0xa005, Some((0xc005, 0xe085))),
    (64, 0xa081, Some((0xc021, 0xe0a1))),
    (128, 0xa041, Some((0xc041, 0xe0c1))),
    (256, 0xa201, None),
    (512, 0xa401, None),
    (1024, 0xa101, None),
];

/// "its floating-point loads and stores are illegal, as are reserved words" (reading A61): C.ADDI4SPN 0, quadrant 0 with
/// funct3 4, C.ADDIW x0, C.LUI 0 and C.ADDI16SP 0, the slots beside C.SUBW and C.ADDW, C.LWSP and C.LDSP x0, C.JR x0.
const RESERVED: [u32; 19] = [
    0x0000, 0x0004, 0x001c, 0x8000, 0x9ffc, 0x2001, 0x307d, 0x6001, 0x6281, 0x6101, 0x6f81, 0x9c41, 0x9c61, 0x9ffd, 0x4002, 0x503e, 0x6002, 0x703e,
    0x8002,
];
const FLOATING: [u32; 8] = [0x2000, 0x3ffc, 0xa000, 0xbffc, 0x2002, 0x3ffe, 0xa002, 0xbffe];

/// HINTs, which do nothing but step on: C.NOP 1 and -1, C.ADDI x1 0, C.LI x0, C.LUI x0, C.SRLI, C.SRAI and C.SLLI by 0,
/// C.SLLI x0, C.MV x0, C.ADD x0.
const HINTS: [u32; 13] =
    [0x0005, 0x107d, 0x0081, 0x4001, 0x6005, 0x707d, 0x8001, 0x8401, 0x0082, 0x0002, 0x0006, 0x8006, 0x9006];

impl List {
    pub(super) fn half_words(&mut self) {
        self.half_values();
        self.half_accesses();
        self.half_jumps();
        self.half_legality();
        self.fetched_by_halves();
        self.long_at_two();
        self.half_runs();
    }

    fn half_values(&mut self) {
        for (name, half, register, value) in VALUES {
            let world = |base: World| base.with(|m| BEFORE.iter().for_each(|(n, value)| m.x[*n] = *value));
            let done = |m: &mut Machine| (m.x[register], m.pc) = (value, 0x42);
            self.step(name, world(outside(half)), 0, done);
        }
    }

    fn half_accesses(&mut self) {
        let pointers = |base: World| base.with(|m| (m.x[2], m.x[8], m.x[10]) = (0x400, 0x420, 0x430));
        let granted = |address: usize| address < 0x500;
        for (name, half, rd, address, size) in LOADS {
            let value = if size == 8 { 0x9abc_def0_8765_4321 } else { 0xffff_ffff_8765_4321 };
            let world = |base: World| pointers(base).put(address, 0x8765_4321).put(address + 4, 0x9abc_def0);
            let done = |m: &mut Machine| (m.x[rd], m.pc) = (value, 0x42);
            self.step(name, world(outside(half)), 0, done);
            match granted(address) {
                true => self.step(&format!("{name}, inside"), world(inside(half)), 0, done),
                false => self.step(&format!("{name}, inside"), world(inside(half)), 16, |m| m.fault = fault(0, 1, address as u64)),
            };
        }
        for (name, half, rs2, address, size) in STORES {
            let world = |base: World| pointers(base).put(address, 0xffff_ffff).put(address + 4, 0xffff_ffff);
            let value = pointers(outside(half)).machine.x[rs2];
            self.step(name, world(outside(half)), 0, |m| m.pc = 0x42).stores(address, size, value);
            let short = world(outside(half)).length(address + size - 1);
            let last = (address + size - 1) as u64;
            self.add(&format!("step: {name}, its last byte absent"), Request::Step, short, (17, 0, last), unchanged);
        }
    }

    /// "with 2 in place of 4 in the next pc and in link values"
    fn half_jumps(&mut self) {
        let at = |half: u32| outside(0).put(0x400, half).with(|m| (m.pc, m.x[8]) = (0x400, 0));
        let to = |offset: i64| move |m: &mut Machine| m.pc = 0x400u64.wrapping_add_signed(offset);
        for (offset, jump, branches) in OFFSETS {
            self.step(&format!("c.j {offset}"), at(jump), 0, to(offset));
            let Some((beqz, bnez)) = branches else { continue };
            self.step(&format!("c.beqz x8, {offset}"), at(beqz), 0, to(offset));
            self.step(&format!("c.beqz x8, {offset}, not taken"), at(beqz).with(|m| m.x[8] = 1 << 63), 0, to(2));
            self.step(&format!("c.bnez x9, {offset}"), at(bnez).with(|m| m.x[9] = 1 << 63), 0, to(offset));
            self.step(&format!("c.bnez x9, {offset}, not taken"), at(bnez), 0, to(2));
        }
        for (place, world) in [("outside", outside as fn(u32) -> World), ("inside", inside)] {
            self.step(&format!("c.jr x5, {place}"), world(0x8282), 0, |m| m.pc = 0x104);
            self.step(&format!("c.jr x1, {place}"), world(0x8082), 0, |m| m.pc = 0x100);
            self.step(&format!("c.jalr x5, {place}"), world(0x9282), 0, |m| (m.x[1], m.pc) = (0x42, 0x104));
            self.step(&format!("c.jalr x1, {place}"), world(0x9082), 0, |m| (m.x[1], m.pc) = (0x42, 0x100));
            self.step(&format!("c.ebreak, {place}"), world(C_EBREAK), 19, unchanged);
        }
        self.step("c.jr x5 to 6", outside(0x8282).with(|m| m.x[5] = 6), 0, |m| m.pc = 6);
        self.step("c.jr x5 to 7", outside(0x8282).with(|m| m.x[5] = 7), 0, |m| m.pc = 6);
        self.step("c.jr x5 to ones", outside(0x8282).with(|m| m.x[5] = ALL), 0, |m| m.pc = ALL - 1);
    }

    fn half_legality(&mut self) {
        for half in RESERVED.into_iter().chain(FLOATING) {
            self.step(&format!("illegal half-word {half:04x}"), inside(half), 13, unchanged);
        }
        for half in HINTS {
            self.step(&format!("hint {half:04x}"), outside(half), 0, |m| m.pc = 0x42);
        }
        // Words of longer formats are long words to a fetch.
        for word in [0x0000_001f, 0x0000_003f, 0x0000_007f, 0xffff_ffff] {
            self.step(&format!("a word of a longer format, {word:x}"), outside(word), 13, unchanged);
        }
    }

    /// "A fetch takes two bytes, asks 11 and 12 of them, and takes two more only if the low two bits are both ones, then
    /// asking 11 and 12 of those."
    fn fetched_by_halves(&mut self) {
        let two = |word: u32| inside(word).with(|m| m.regions[2] = region(0x40, mask(1), 4));
        let one = |word: u32| inside(word).with(|m| m.regions[2] = region(0x40, mask(0), 4));
        for (name, half, stop) in [("c.nop", C_NOP, 0), ("a reserved half-word", 0x8000, 13)] {
            let done = |m: &mut Machine| m.pc = if stop == 0 { 0x42 } else { 0x40 };
            self.step(&format!("{name}, code of two bytes"), two(half), stop, done);
            self.step(&format!("{name}, code of one byte"), one(half), 11, |m| m.fault = fault(0, 3, 0x41));
            self.step(&format!("{name}, memory ends after it"), outside(half).length(0x42), stop, done);
            self.step(&format!("{name}, code and memory end after it"), two(half).length(0x42), stop, done);
            let short = outside(half).length(0x41);
            self.add(&format!("step: {name}, memory ends in it"), Request::Step, short, (12, 0, 0x41), unchanged);
            self.step(&format!("{name}, code and memory end in it"), one(half).length(0x41), 11, |m| m.fault = fault(0, 3, 0x41));
            let first = two(half).length(0x41);
            self.add(&format!("step: {name}, code of two bytes, memory ends in it"), Request::Step, first, (12, 0, 0x41), unchanged);
        }
        for (name, word) in [("nop", NOP), ("an illegal long word", 0xffff_ffff)] {
            self.step(&format!("{name}, code of two bytes"), two(word), 11, |m| m.fault = fault(0, 3, 0x42));
            self.step(&format!("{name}, code of two bytes, memory too"), two(word).length(0x42), 11, |m| m.fault = fault(0, 3, 0x42));
            let first = two(word).length(0x41);
            self.add(&format!("step: {name}, code of two bytes, memory of one"), Request::Step, first, (12, 0, 0x41), unchanged);
            for length in [0x40, 0x41, 0x42, 0x43] {
                for (place, world) in [("outside", outside(word)), ("inside", inside(word))] {
                    let name = format!("step: {name}, memory ends at {length:x}, {place}");
                    self.add(&name, Request::Step, world.length(length), (12, 0, length as u64), unchanged);
                }
            }
            let lacking = two(word).with(|m| m.regions[9] = region(0x42, mask(0), 0));
            self.step(&format!("{name}, code 10 without execute at 42"), lacking, 11, |m| m.fault = fault(10, 3, 0x42));
            let fourth = two(word).with(|m| m.regions[9] = region(0x42, mask(0), 4));
            self.step(&format!("{name}, its fourth byte refused"), fourth, 11, |m| m.fault = fault(0, 3, 0x43));
        }
        for pc in [ALL - 1, 1 << 48, (1 << 48) - 2] {
            let world = |base: World| base.with(|m| m.pc = pc);
            self.add(&format!("step: pc {pc:x}, outside"), Request::Step, world(outside(NOP)), (12, 0, pc), unchanged);
            self.step(&format!("pc {pc:x}, inside"), world(inside(NOP)), 11, |m| m.fault = fault(0, 3, pc));
        }
    }

    /// Long words at 42, after a C.NOP.
    fn long_at_two(&mut self) {
        let at = |base: World, word: u32| base.put(0x42, word).with(|m| m.pc = 0x42);
        let place = |word: u32| at(outside(C_NOP), word);
        let within = |word: u32, options: u64| at(inside(C_NOP), word).with(|m| m.options = options);
        self.step("addi at 42", place(addi(7, 0, 5)), 0, |m| (m.x[7], m.pc) = (5, 0x46));
        self.step("jal at 42", place(0x0060_00ef), 0, |m| (m.x[1], m.pc) = (0x46, 0x48));
        self.step("jalr at 42 to 105", place(i_type(0x67, 0, 1, 5, 0)), 0, |m| (m.x[1], m.pc) = (0x46, 0x104));
        self.step("auipc at 42", place(0x0000_1397), 0, |m| (m.x[7], m.pc) = (0x1042, 0x46));
        self.step("ecall at 42", place(ECALL), 18, unchanged);
        self.step("ebreak at 42", place(EBREAK), 19, unchanged);
        self.resume("at 42", place(ECALL), 9, 0, |m| (m.x[10], m.pc) = (9, 0x46));
        let left = |reason: u64, pc: u64| move |m: &mut Machine| (m.mode, m.reason, m.exit_pc, m.pc) = (0, reason, 0x42, pc);
        self.step("exit at 42", within(hfi(EXIT), 0), 0, left(1, 0x46));
        self.step("exit at 42, redirected", within(hfi(EXIT), 4), 0, left(1, 0x2460));
        self.step("ecall at 42, redirected", within(ECALL, 2), 0, left(2, 0x2460));
        self.run("exit at 42: 20", within(hfi(EXIT), 0), 5, (20, 1), left(1, 0x46));
        let entered = |pc: u64| move |m: &mut Machine| (m.mode, m.options, m.pc, m.fault.occurred) = (1, 5, pc, 0);
        self.step("enter at 42", place(hfi(ENTER)).with(|m| m.x[5] = 5), 0, entered(0x46));
        for target in [0x80, 0x82, 0x86, ALL - 1] {
            let world = place(hfi(ENTER_JUMP)).with(|m| (m.x[5], m.x[6]) = (5, target));
            self.step(&format!("enter with jump at 42 to {target:x}"), world, 0, entered(target));
        }
        for target in [0x81, 0x83, ALL] {
            let world = place(hfi(ENTER_JUMP)).with(|m| (m.x[5], m.x[6]) = (5, target));
            self.step(&format!("enter with jump at 42 to {target:x}"), world, 15, unchanged);
        }
        let handler = place(hfi(SET_HANDLER)).with(|m| m.x[5] = 0x86);
        self.step("set handler 86", handler, 0, |m| (m.handler, m.pc) = (0x84, 0x46));
    }

    fn half_runs(&mut self) {
        // c.li x8, 3; c.addi x10, 2; c.addi x8, -1; c.bnez x8, -4; ecall at 48
        let count = |base: World| base.put(0x40, 0x0509_440d).put(0x44, 0xfc75_147d).put(0x48, ECALL);
        let counted = |m: &mut Machine| (m.x[8], m.x[10], m.pc) = (0, 0x110, 0x48);
        self.run("a loop of half-words", count(outside(0)), 50, (18, 10), counted);
        self.run("a loop of half-words, locked", count(locked(0)), 50, (18, 10), counted);
        self.run("a loop of half-words, budget 5", count(outside(0)), 5, (21, 5), |m| (m.x[8], m.x[10], m.pc) = (2, 0x10e, 0x44));
        // c.nop; jal x1 to 48; at 48 c.ebreak
        let call = outside(0).put(0x40, C_NOP).put(0x42, 0x0060_00ef).put(0x48, C_EBREAK);
        self.run("a long jump at 42", call, 50, (19, 2), |m| (m.x[1], m.pc) = (0x46, 0x48));
        // c.jalr x5 to 46, there c.jr x1 back to 42, there c.ebreak
        let back = outside(0x9002_9282).put(0x46, 0x8082).with(|m| m.x[5] = 0x46);
        self.run("a call and its return", back, 50, (19, 2), |m| (m.x[1], m.pc) = (0x42, 0x42));
        let ends = outside(0).put(0x7fc, 0x0001_0001).with(|m| m.pc = 0x7fc);
        self.add("run: half-words to the end of memory", Request::Run(5), ends, (12, 2, 0x800), |m| m.pc = 0x800);
        let over = outside(0).put(0x7fc, 0x0013_0001).with(|m| m.pc = 0x7fc);
        self.add("run: a long word over the end of memory", Request::Run(5), over, (12, 1, 0x800), |m| m.pc = 0x7fe);
        let code = inside(0).put(0xfc, 0x0013_0001).with(|m| m.pc = 0xfc);
        self.run("a long word over the end of code", code, 5, (11, 1), |m| (m.pc, m.fault) = (0xfe, fault(0, 3, 0x100)));
        let half = inside(0).put(0xfc, 0x0001_0001).with(|m| m.pc = 0xfc);
        self.run("half-words to the end of code", half, 5, (11, 2), |m| (m.pc, m.fault) = (0x100, fault(0, 3, 0x100)));
        // The upper half of a long word may be a word of its own.
        let middle = outside(0).put(0x44, 0x9002_0513).with(|m| m.pc = 0x46);
        self.run("into the upper half of a long word", middle, 5, (19, 0), unchanged);
    }
}

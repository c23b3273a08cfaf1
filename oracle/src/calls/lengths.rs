//! Directed calls of document 02, Job 8, beside those of `half.rs`: code of one and two bytes and Job 5, runs of half-words that
//! cross the mode, code that a run changes by halves, the order of questions at an odd pc, fetches and data over two regions.
//! The answers are read off the documents.

use super::*;

const C_NOP: u32 = 0x0001;
const C_EBREAK: u32 = 0x9002;
/// c.li x10, 5
const C_LI: u32 = 0x4515;

/// Code of one or two bytes: its base, and the k of its mask.
const SMALL_CODE: [(u64, u32); 4] = [(0x41, 0), (0x42, 0), (0x43, 0), (0x42, 1)];

impl List {
    pub(super) fn lengths(&mut self) {
        self.small_code();
        self.halves_cross();
        self.code_by_halves();
        self.odd_asked();
        self.over_two_regions();
        self.resumed_at_halves();
        self.rules_at_two();
    }

    /// "no byte may be both writable and executable": an odd byte is executable by the fetch at the even pc below it. Half-words
    /// stand at 40 and 42; a byte is written through region 1 or region 2.
    fn small_code(&mut self) {
        for (base, k) in SMALL_CODE {
            let size = 1 << k;
            let pc = base & !1;
            let kept = |written: u64, number: usize| {
                move |m: &mut Machine| {
                    (m.pc, m.x[5]) = (pc, 1);
                    m.regions[0] = Region::default();
                    m.regions[1] = Region::default();
                    m.regions[number - 1] = if number == 1 { region(written, 1, 2) } else { region(written, mask(0), 2) };
                    m.regions[2] = region(base, mask(k), 4);
                }
            };
            // A half-word runs where both its bytes are code; otherwise its first byte that is not is refused.
            let after = |m: &mut Machine| match (base, k) {
                (0x42, 1) => m.pc = 0x44,
                (0x42, _) => m.fault = fault(0, 3, 0x43),
                _ => m.fault = fault(0, 3, pc),
            };
            let runs = (base, k) == (0x42, 1);
            for written in base - 1..=base + size {
                for number in [1, 2] {
                    let name = format!("code of {size} at {base:x}, region {number} writes {written:x}");
                    let world = |base: World| base.put(0x40, C_NOP << 16 | C_NOP).with(kept(written, number));
                    let both = (base..base + size).contains(&written);
                    if both {
                        self.step(&name, world(locked(0)), 4, unchanged);
                        self.run(&name, world(locked(0)), 0, (4, 0), unchanged);
                    } else {
                        self.step(&name, world(locked(0)), if runs { 0 } else { 11 }, after);
                    }
                    self.step(&format!("{name}, unlocked"), world(inside(0)), if runs { 0 } else { 11 }, after);
                    let enter = world(outside(0)).put(0x80, hfi(ENTER)).with(|m| m.pc = 0x80);
                    let entered = |m: &mut Machine| (m.mode, m.options, m.pc, m.fault.occurred) = (1, 1, 0x84, 0);
                    match both {
                        true => self.step(&format!("{name}, enter that locks"), enter, 22, unchanged),
                        false => self.step(&format!("{name}, enter that locks"), enter, 0, entered),
                    };
                }
            }
        }
    }

    /// Outside, enters with jump to 82, two half-words, then a word at 86 that leaves.
    fn halves_cross(&mut self) {
        let world = |options: u64, word: u32| {
            let enter = outside(hfi(ENTER_JUMP)).with(|m| (m.x[5], m.x[6], m.handler) = (options, 0x82, 0x60));
            enter.put(0x82, C_LI << 16 | C_NOP).put(0x86, word).put(0x8a, C_EBREAK).put(0x60, C_EBREAK)
        };
        let out = |options: u64, reason: u64, pc: u64| {
            move |m: &mut Machine| {
                (m.options, m.reason, m.exit_pc, m.pc, m.x[10]) = (options, reason, 0x86, pc, 5);
                m.fault.occurred = 0;
            }
        };
        let within = |options: u64, pc: u64| {
            move |m: &mut Machine| {
                (m.mode, m.options, m.pc, m.x[10]) = (1, options, pc, 5);
                m.fault.occurred = 0;
            }
        };
        self.run("enters to 82, exits at 86, goes on at 8a", world(0, hfi(EXIT)), 50, (19, 4), out(0, 1, 0x8a));
        self.run("enters to 82, locked, exits at 86", world(1, hfi(EXIT)), 50, (19, 4), out(1, 1, 0x8a));
        self.run("enters to 82, exits at 86 to the handler", world(4, hfi(EXIT)), 50, (19, 4), out(4, 1, 0x60));
        self.run("enters to 82, ECALL at 86 to the handler", world(2, ECALL), 50, (19, 4), out(2, 2, 0x60));
        self.run("enters to 82, ECALL at 86", world(0, ECALL), 50, (18, 3), within(0, 0x86));
        self.run("enters to 82, C.EBREAK at 86", world(15, C_EBREAK), 50, (19, 3), within(15, 0x86));
        self.run("enters to 82, budget used up at 86", world(0, hfi(EXIT)), 3, (21, 3), within(0, 0x86));
        self.run("enters to 82, an enter at 86", world(0, hfi(ENTER)), 50, (23, 3), within(0, 0x86));
        self.run("enters to 82, a region instruction at 86, locked", world(1, hfi(SELECT)), 50, (25, 3), within(1, 0x86));
        self.run("enters to 82, an illegal half-word at 86", world(0, 0x8000), 50, (13, 3), within(0, 0x86));
        // Code ends at 100: enters to fe, where a half-word runs and a long word does not.
        let last = |half: u32| outside(hfi(ENTER_JUMP)).with(|m| (m.x[5], m.x[6]) = (1, 0xfe)).put(0xfe, half);
        let refused = |pc: u64| move |m: &mut Machine| (m.mode, m.options, m.pc, m.fault) = (1, 1, pc, fault(0, 3, 0x100));
        self.run("enters to code's last half-word", last(C_NOP), 50, (11, 2), refused(0x100));
        self.run("enters to a long word over the end of code", last(NOP), 50, (11, 1), refused(0xfe));
        self.run("the same with other bytes past code", last(0xffff_0013), 50, (11, 1), refused(0xfe));
        // An enter without jump at 42 goes on at 46.
        let at_two = outside(C_NOP).put(0x42, hfi(ENTER)).put(0x46, C_EBREAK).with(|m| m.x[5] = 0);
        self.run("enters at 42, goes on at 46", at_two, 50, (19, 2), |m| (m.mode, m.options, m.pc, m.fault.occurred) = (1, 0, 0x46, 0));
    }

    /// Outside HFI mode a run may store into its code, half a word too. sh x7, 0(x8) stands at 40.
    fn code_by_halves(&mut self) {
        let world = |at: u64, half: u64, word: u32| {
            let base = outside(store(1, 7, 8, 0)).put(0x44, word).put(0x48, C_EBREAK);
            base.with(|m| (m.x[7], m.x[8], m.x[10]) = (half, at, 0))
        };
        let ends = |x10: u64, pc: u64| move |m: &mut Machine| (m.x[10], m.pc) = (x10, pc);
        self.run("stores C.EBREAK before it", world(0x44, 0x9002, NOP), 50, (19, 1), ends(0, 0x44)).stores(0x44, 2, 0x9002);
        self.run("stores the upper half of an ADDI", world(0x46, 0x70, addi(10, 0, 0)), 50, (19, 2), ends(7, 0x48)).stores(0x46, 2, 0x70);
        let split = world(0x44, 1, C_LI << 16 | addi(10, 0, 0));
        self.run("makes two half-words of a long word", split, 50, (19, 3), ends(5, 0x48)).stores(0x44, 2, 1);
        let joined = world(0x44, 0x513, 0x0070_0001);
        self.run("makes a long word of two half-words", joined, 50, (19, 2), ends(7, 0x48)).stores(0x44, 2, 0x513);
        // c.sw x15, 4(x8) is two bytes long and stores the next two half-words.
        let short = outside(0).put(0x40, 0xc05c).put(0x42, 0).with(|m| (m.x[15], m.x[8]) = (0x9002_0001, 0x3e));
        self.run("C.SW of the next two half-words", short, 50, (19, 2), |m| m.pc = 0x44).stores(0x42, 4, 0x9002_0001);
    }

    /// What is asked before 10, and 10 before all else of a step.
    fn odd_asked(&mut self) {
        for pc in [0x41, 0x43, ALL] {
            let odd = |world: World| world.with(|m| m.pc = pc);
            self.step(&format!("pc {pc:x}, ill-formed: 3 before 10"), odd(outside(NOP)).with(|m| m.mode = 2), 3, unchanged);
            self.run(&format!("pc {pc:x}, budget 0: 21 before 10"), odd(inside(NOP)), 0, (21, 0), unchanged);
            self.run(&format!("pc {pc:x}, budget 1,000,001: 2 before 10"), odd(inside(NOP)), 1_000_001, (2, 0), unchanged);
            self.step(&format!("pc {pc:x}, no memory: 10 before 12"), odd(outside(NOP)).length(0), 10, unchanged);
            let bare = odd(inside(NOP)).with(|m| m.regions[2] = Region::default());
            self.step(&format!("pc {pc:x}, no code region: 10 before 11"), bare, 10, unchanged);
            let writable = odd(locked(NOP)).with(|m| m.regions[1] = region(0, mask(8), 3));
            self.step(&format!("pc {pc:x}, writable code: 4 before 10"), writable, 4, unchanged);
        }
        for half in [C_NOP, C_EBREAK, 0x8000] {
            self.run(&format!("half-word {half:04x}, budget 0"), outside(half), 0, (21, 0), unchanged);
        }
    }

    /// "each byte is judged singly": fetches over regions 3 and 10, half-words' data over regions 2 and 7.
    fn over_two_regions(&mut self) {
        let code = |word: u32, pc: u64, three: Region, ten: Region| {
            inside(0).put(pc as usize, word).with(|m| (m.pc, m.regions[2], m.regions[9]) = (pc, three, ten))
        };
        let next = |pc: u64| move |m: &mut Machine| m.pc = pc;
        self.step("a long word over regions 3 and 10", code(NOP, 0x40, region(0x40, mask(1), 4), region(0x42, mask(1), 4)), 0, next(0x44));
        self.step("one at 42 over regions 3 and 10", code(NOP, 0x42, region(0x40, mask(2), 4), region(0x44, mask(2), 4)), 0, next(0x46));
        self.step("a half-word over regions 3 and 10", code(C_NOP, 0x42, region(0x42, mask(0), 4), region(0x43, mask(0), 4)), 0, next(0x44));
        let hidden = |word: u32| code(word, 0x40, region(0x42, mask(1), 0), region(0, mask(8), 4));
        self.step("a half-word before what region 3 hides", hidden(C_NOP), 0, next(0x42));
        self.step("a long word into what region 3 hides", hidden(NOP), 11, |m| m.fault = fault(3, 3, 0x42));
        let second = |word: u32| code(word, 0x40, region(0x41, mask(0), 0), region(0, mask(8), 4));
        self.step("a half-word whose second byte region 3 hides", second(C_NOP), 11, |m| m.fault = fault(3, 3, 0x41));
        // c.ld x9, 0(x8) and c.sd x9, 0(x8) at 4fc
        let data = |half: u32, permission: u64| {
            let world = inside(half).put(0x4fc, 0x1122_3344).put(0x500, 0x5566_7788);
            world.with(|m| (m.x[8], m.x[9], m.regions[6]) = (0x4fc, 0x0102_0304_0506_0708, region(0x500, mask(8), permission)))
        };
        self.step("c.ld over regions 2 and 7", data(0x6004, 1), 0, |m| (m.x[9], m.pc) = (0x5566_7788_1122_3344, 0x42));
        self.step("c.sd over regions 2 and 7", data(0xe004, 2), 0, next(0x42)).stores(0x4fc, 8, 0x0102_0304_0506_0708);
        self.step("c.ld, region 7 lacks read", data(0x6004, 2), 16, |m| m.fault = fault(7, 1, 0x500));
        self.step("c.sd, region 7 lacks write: nothing is stored", data(0xe004, 1), 16, |m| m.fault = fault(7, 2, 0x500));
    }

    /// "Resuming ... adds 4 to pc; it asks question 3 only", wherever pc stands.
    fn resumed_at_halves(&mut self) {
        for (pc, next) in [(0x42, 0x46), (0x46, 0x4a), (ALL - 1, 2), (ALL - 5, ALL - 1), ((1 << 48) - 2, (1 << 48) + 2)] {
            for mode in [0, 1] {
                let world = outside(C_EBREAK << 16 | C_NOP).with(|m| (m.pc, m.mode) = (pc, mode));
                self.resume(&format!("pc {pc:x}, mode {mode}, half-words there"), world, 0x55, 0, |m| (m.pc, m.x[10]) = (next, 0x55));
            }
        }
        // ECALL at 42, then at 46 c.li x10, 5
        let ecall = outside(C_NOP).put(0x42, ECALL).put(0x46, C_EBREAK << 16 | C_LI);
        self.run("to an ECALL at 42", ecall.clone(), 50, (18, 1), |m| m.pc = 0x42);
        let resumed = ecall.with(|m| (m.pc, m.x[10]) = (0x46, 9));
        self.run("from where it is resumed", resumed, 50, (19, 1), |m| (m.pc, m.x[10]) = (0x48, 5));
    }

    /// Words of opcode 5b and h-words at 42: they are long words.
    fn rules_at_two(&mut self) {
        // 15 before Job 8
        let even = outside(hfi(ENTER_JUMP)).with(|m| (m.x[5], m.x[6]) = (5, 0x82));
        self.step("enter with jump to 82, a multiple of 2", even, 0, |m| (m.mode, m.options, m.pc, m.fault.occurred) = (1, 5, 0x82, 0));
        let at = |base: World, word: u32| base.put(0x42, word).with(|m| (m.pc, m.x[5]) = (0x42, 2));
        self.step("select at 42", at(outside(C_NOP), hfi(SELECT)), 0, |m| (m.selector, m.pc) = (2, 0x46));
        let chosen = |word: u32| at(outside(C_NOP), word).with(|m| m.selector = 3);
        self.step("get bound at 42", chosen(hfi(GET_BOUND)), 0, |m| (m.x[7], m.pc) = (mask(8), 0x46));
        self.step("set permission at 42: code has no bit 1", chosen(hfi(SET_PERMISSION)), 14, unchanged);
        self.step("get handler at 42", at(inside(C_NOP), hfi(GET_HANDLER)), 0, |m| (m.x[7], m.pc) = (0x2460, 0x46));
        self.step("get handler at 42, locked", at(locked(C_NOP), hfi(GET_HANDLER)), 25, unchanged);
        self.step("enter at 42, inside", at(inside(C_NOP), hfi(ENTER)), 23, unchanged);
        self.step("exit at 42, outside", at(outside(C_NOP), hfi(EXIT)), 24, unchanged);
        self.step("hld at 42", at(inside(C_NOP), hload(3, 7, 8)).put(0x208, 0x1234), 0, |m| (m.x[7], m.pc) = (0x1234, 0x46));
        self.step("hsb at 42 past its region", at(inside(C_NOP), hstore(0, 7, 0x40)), 16, |m| m.fault = fault(1, 2, 0x240));
        self.step("hld at 42, outside", at(outside(C_NOP), hload(3, 7, 8)), 14, unchanged);
        for (name, value, target, stop) in [("operand 10, to 81", 16, 0x81, 14), ("to 81", 1, 0x81, 15), ("writable code, to 81", 1, 0x81, 22)] {
            let world = at(outside(C_NOP), hfi(ENTER_JUMP)).with(|m| (m.x[5], m.x[6]) = (value, target));
            let world = if stop == 22 { world.with(|m| m.regions[1] = region(0, mask(8), 3)) } else { world };
            self.step(&format!("enter with jump at 42, {name}"), world, stop, unchanged);
        }
    }
}

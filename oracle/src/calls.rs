//! Stored calls: step, run and resume on machines that no sheet can make
//! (`crates/calls`). A directed call carries its answer as read off
//! document 01 as document 02 has changed it, machine and memory included, and
//! the oracle has to give the same: it guards against slips. The random ones
//! come from the supply.

use crate::compare::Engine;
use crate::fetches;
use crate::hfi_rules;
use crate::instruction::{decode, encode, m_kind, Instruction, M_WORDS};
use crate::m_words::PAIRS;
use crate::machine::{with_others_zero, Machine, Region};
use crate::region::address;
use crate::step::data_access;
use crate::supply::Supply;
use crate::ten_regions;
use crate::writable_code::{aimed_call, aims, hiding_aims, WAYS};

mod half;
mod lengths;
mod ten;

/// The bytes that a call has room for; the first `length` of them are lent.
pub const ROOM: usize = 65_536;

const ALL: u64 = u64::MAX;

#[derive(Clone, Copy, Debug)]
pub enum Request {
    Step,
    /// with its budget
    Run(u64),
    /// with its value
    Resume(u64),
}

#[derive(Clone)]
pub struct Call {
    pub name: String,
    pub request: Request,
    pub machine: Machine,
    pub length: usize,
    pub bytes: Vec<u8>,
}

#[derive(Clone, Debug, PartialEq, Eq)]
pub struct Answer {
    pub stop: u64,
    /// Of a run; 0 otherwise.
    pub count: u64,
    pub address: u64,
    pub machine: Machine,
    pub bytes: Vec<u8>,
}

impl Call {
    /// What an engine answers.
    pub fn answer(&self, engine: &dyn Engine) -> Option<Answer> {
        let (mut machine, mut bytes) = (self.machine, self.bytes.clone());
        let lent = &mut bytes[..self.length];
        let (stop, count, address) = match self.request {
            Request::Step => engine.step(&mut machine, lent).map(|(stop, address)| (stop, 0, address))?,
            Request::Run(budget) => engine.run(&mut machine, lent, budget)?,
            Request::Resume(value) => (engine.resume(&mut machine, value)?, 0, 0),
        };
        Some(Answer { stop, count, address, machine, bytes })
    }

    /// The block of five lines that stands for it in `crates/calls/data`.
    pub fn written(&self) -> String {
        format!("{}\n{}", self.name, self.unnamed())
    }

    /// The block without its name.
    fn unnamed(&self) -> String {
        let (number, argument) = match self.request {
            Request::Step => (1, 0),
            Request::Run(budget) => (2, budget),
            Request::Resume(value) => (3, value),
        };
        format!("call,{number},{argument:x},{:x}\n{}", self.length, state(&self.machine, &self.bytes))
    }
}

impl Answer {
    /// The block that `crates/calls` prints.
    pub fn written(&self, name: &str) -> String {
        format!("{name}\nstop,{},{:x},{:x}\n{}", self.stop, self.count, self.address, state(&self.machine, &self.bytes))
    }
}

/// Three lines: pc and the HFI state whole, the registers and the doublewords
/// that are not 0.
fn state(machine: &Machine, bytes: &[u8]) -> String {
    let m = machine;
    let mut numbers = vec![m.pc, m.mode, m.reason, m.exit_pc, m.options, m.handler, m.selector];
    for region in &m.regions {
        numbers.extend([region.base, region.bound, region.permission]);
    }
    numbers.extend([m.fault.occurred, m.fault.region, m.fault.op, m.fault.address]);
    let mut text = "state".to_string();
    for number in numbers {
        text.push_str(&format!(",{number:x}"));
    }
    text.push_str("\nx");
    for (register, value) in m.x.iter().enumerate().filter(|(_, value)| **value != 0) {
        text.push_str(&format!(",{register},{value:x}"));
    }
    text.push_str("\nmemory");
    for (place, double) in bytes.chunks(8).enumerate() {
        let value = u64::from_le_bytes(double.try_into().unwrap());
        if value != 0 {
            text.push_str(&format!(",{:x},{value:x}", 8 * place));
        }
    }
    text.push('\n');
    text
}

/// A directed call and its answer, as read off the documents.
pub struct Directed {
    pub call: Call,
    pub told: Answer,
}

impl Directed {
    /// The call has stored the `size` low bytes of a value.
    fn stores(&mut self, address: usize, size: usize, value: u64) {
        self.told.bytes[address..address + size].copy_from_slice(&value.to_le_bytes()[..size]);
    }
}

/// A machine and its memory.
#[derive(Clone)]
struct World {
    machine: Machine,
    length: usize,
    bytes: Vec<u8>,
}

impl World {
    fn with(mut self, change: impl FnOnce(&mut Machine)) -> World {
        change(&mut self.machine);
        self
    }

    fn length(mut self, length: usize) -> World {
        self.length = length;
        self
    }

    fn put(mut self, address: usize, word: u32) -> World {
        self.bytes[address..address + 4].copy_from_slice(&word.to_le_bytes());
        self
    }
}

fn mask(k: u32) -> u64 {
    ALL << k
}

/// Well formed, outside HFI mode, at pc 40, with a number of its own in nearly
/// every field, so that one sees what a call leaves. Code is granted below 100,
/// ordinary data from 400 to 4ff, h-words have the 64 bytes from 200 on.
fn outside(word: u32) -> World {
    let mut machine = Machine { pc: 0x40, reason: 2, exit_pc: 0x77, options: 8, handler: 0x2460, ..Machine::default() };
    for n in [1, 5, 6, 7, 8, 10, 31] {
        machine.x[n] = 0x100 + n as u64;
    }
    machine.regions = with_others_zero([
        Region { base: 0x200, bound: 0x40, permission: 3 },
        Region { base: 0x400, bound: mask(8), permission: 3 },
        Region { base: 0, bound: mask(8), permission: 4 },
    ]);
    machine.fault = crate::Fault { occurred: 1, region: 2, op: 2, address: 0xabc };
    World { machine, length: 0x800, bytes: vec![0; ROOM] }.put(0x40, word)
}

fn inside(word: u32) -> World {
    outside(word).with(|m| m.mode = 1)
}

fn locked(word: u32) -> World {
    inside(word).with(|m| m.options = 1)
}

const NOP: u32 = 0x13;
const ECALL: u32 = 0x73;
const EBREAK: u32 = 0x0010_0073;

// funct7 of opcode 5b
const ENTER: u32 = 0;
const ENTER_JUMP: u32 = 1;
const EXIT: u32 = 2;
const SELECT: u32 = 3;
const SET_BASE: u32 = 4;
const GET_BASE: u32 = 5;
const SET_BOUND: u32 = 6;
const GET_BOUND: u32 = 7;
const SET_PERMISSION: u32 = 8;
const GET_PERMISSION: u32 = 9;
const SET_HANDLER: u32 = 10;
const GET_HANDLER: u32 = 11;
const RESET: u32 = 12;

/// The word of a row of the table: x5 where it names rs1, x6 where it names
/// rs2, x7 where it names rd.
fn hfi(funct7: u32) -> u32 {
    let (rd, rs1, rs2) = match funct7 {
        ENTER | SELECT | SET_BASE | SET_BOUND | SET_PERMISSION | SET_HANDLER => (0, 5, 0),
        ENTER_JUMP => (0, 5, 6),
        GET_BASE | GET_BOUND | GET_PERMISSION | GET_HANDLER => (7, 0, 0),
        _ => (0, 0, 0),
    };
    hfi_fields(funct7, rd, rs1, rs2)
}

fn hfi_fields(funct7: u32, rd: u32, rs1: u32, rs2: u32) -> u32 {
    funct7 << 25 | rs2 << 20 | rs1 << 15 | rd << 7 | 0x5b
}

fn i_type(opcode: u32, funct3: u32, rd: u32, rs1: u32, immediate: i32) -> u32 {
    (immediate as u32) << 20 | rs1 << 15 | funct3 << 12 | rd << 7 | opcode
}

fn s_type(opcode: u32, funct3: u32, rs1: u32, rs2: u32, immediate: i32) -> u32 {
    let offset = immediate as u32 & 0xfff;
    offset >> 5 << 25 | rs2 << 20 | rs1 << 15 | funct3 << 12 | (offset & 31) << 7 | opcode
}

fn addi(rd: u32, rs1: u32, immediate: i32) -> u32 {
    i_type(0x13, 0, rd, rs1, immediate)
}

fn load(funct3: u32, rd: u32, rs1: u32, offset: i32) -> u32 {
    i_type(0x03, funct3, rd, rs1, offset)
}

fn store(funct3: u32, rs2: u32, rs1: u32, offset: i32) -> u32 {
    s_type(0x23, funct3, rs1, rs2, offset)
}

/// rs1 is x9, which is 0 unless a call sets it.
fn hload(funct3: u32, rd: u32, offset: i32) -> u32 {
    hload_by(funct3, rd, 9, offset)
}

fn hstore(funct3: u32, rs2: u32, offset: i32) -> u32 {
    hstore_by(funct3, rs2, 9, offset)
}

fn hload_by(funct3: u32, rd: u32, rs1: u32, offset: i32) -> u32 {
    i_type(0x0b, funct3, rd, rs1, offset)
}

fn hstore_by(funct3: u32, rs2: u32, rs1: u32, offset: i32) -> u32 {
    s_type(0x2b, funct3, rs1, rs2, offset)
}

/// An RV64M word: its name, its opcode and its funct3.
type MRow = (&'static str, u32, u32);

/// In the manual's order, OP then OP-32.
const M_ROWS: [MRow; 13] = [
    ("mul", 0x33, 0),
    ("mulh", 0x33, 1),
    ("mulhsu", 0x33, 2),
    ("mulhu", 0x33, 3),
    ("div", 0x33, 4),
    ("divu", 0x33, 5),
    ("rem", 0x33, 6),
    ("remu", 0x33, 7),
    ("mulw", 0x3b, 0),
    ("divw", 0x3b, 4),
    ("divuw", 0x3b, 5),
    ("remw", 0x3b, 6),
    ("remuw", 0x3b, 7),
];

fn m_word((_, opcode, funct3): MRow, rd: u32, rs1: u32, rs2: u32) -> u32 {
    1 << 25 | rs2 << 20 | rs1 << 15 | funct3 << 12 | rd << 7 | opcode
}

/// The 64-bit form of a number below 0.
const fn minus(number: u64) -> u64 {
    number.wrapping_neg()
}

const LEAST: u64 = 1 << 63;

/// Operands and what the 13 words make of them, in the order of `M_ROWS`; the
/// long ones by Python's whole numbers.
const M_VALUES: [(u64, u64, [u64; 13]); 13] = [
    (20, 6, [120, 0, 0, 0, 3, 3, 2, 2, 120, 3, 3, 2, 2]),
    // 2^64 - 20 is 6 times 2aaaaaaaaaaaaaa7 and 2; 2^32 - 20 is 6 times 2aaaaaa7 and 2
    (minus(20), 6, [minus(120), ALL, ALL, 5, minus(3), 0x2aaa_aaaa_aaaa_aaa7, minus(2), 2, minus(120), minus(3), 0x2aaa_aaa7, minus(2), 2]),
    // 20 (2^64 - 6) is 19 times 2^64 and some
    (20, minus(6), [minus(120), ALL, 19, 19, minus(3), 0, 2, 20, minus(120), minus(3), 0, 2, 20]),
    // (2^64 - 20) (2^64 - 6) is 2^128 - 26 times 2^64 and 120
    (minus(20), minus(6), [120, 0, minus(20), minus(26), 3, 0, minus(2), minus(20), 120, 3, 0, minus(2), minus(20)]),
    (5, 0, [0, 0, 0, 0, ALL, ALL, 5, 5, 0, ALL, ALL, 5, 5]),
    (minus(5), 0, [0, 0, 0, 0, ALL, ALL, minus(5), minus(5), 0, ALL, ALL, minus(5), minus(5)]),
    // the low words are 0 and -1
    (LEAST, ALL, [LEAST, 0, LEAST, LEAST - 1, LEAST, 0, 0, LEAST, 0, 0, 0, 0, 0]),
    (ALL, ALL, [1, 0, ALL, minus(2), 1, 1, 0, 0, 1, 1, 1, 0, 0]),
    (LEAST, LEAST, [0, 1 << 62, 3 << 62, 1 << 62, 1, 1, 0, 0, 0, ALL, ALL, 0, 0]),
    // the most negative word and -1, with other upper halves
    (
        0x1234_5678_8000_0000,
        0x9abc_def0_ffff_ffff,
        [
            0x6dcb_a987_8000_0000,
            0xf8cc_93d6_03bf_e670,
            0x0b00_ea4e_83bf_e670,
            0x0b00_ea4e_83bf_e670,
            0,
            0,
            0x1234_5678_8000_0000,
            0x1234_5678_8000_0000,
            0xffff_ffff_8000_0000,
            0xffff_ffff_8000_0000,
            0,
            0,
            0xffff_ffff_8000_0000,
        ],
    ),
    // a divisor of 2^32: a word form divides by zero
    (
        0xdead_beef_8000_0005,
        1 << 32,
        [
            0x8000_0005_0000_0000,
            0xffff_ffff_dead_beef,
            0xffff_ffff_dead_beef,
            0xdead_beef,
            0xffff_ffff_dead_bef0,
            0xdead_beef,
            0xffff_ffff_8000_0005,
            0x8000_0005,
            0,
            ALL,
            ALL,
            0xffff_ffff_8000_0005,
            0xffff_ffff_8000_0005,
        ],
    ),
    // the most negative word and -1, above zeros
    (
        0x8000_0000,
        0xffff_ffff,
        [
            0x7fff_ffff_8000_0000,
            0,
            0,
            0,
            0,
            0,
            0x8000_0000,
            0x8000_0000,
            0xffff_ffff_8000_0000,
            0xffff_ffff_8000_0000,
            0,
            0,
            0xffff_ffff_8000_0000,
        ],
    ),
    (
        0x0123_4567_89ab_cdef,
        0xfedc_ba98_7654_3210,
        [
            0x2236_d88f_e561_8cf0,
            0xfffe_b499_23cc_0953,
            0x0121_fa00_ad77_d742,
            0x0121_fa00_ad77_d742,
            0,
            0,
            0x0123_4567_89ab_cdef,
            0x0123_4567_89ab_cdef,
            0xffff_ffff_e561_8cf0,
            ALL,
            1,
            ALL,
            0x1357_9bdf,
        ],
    ),
];

fn unchanged(_: &mut Machine) {}

/// The directed calls, by subject.
#[derive(Default)]
struct List {
    all: Vec<Directed>,
}

impl List {
    fn add(
        &mut self,
        name: &str,
        request: Request,
        world: World,
        (stop, count, address): (u64, u64, u64),
        change: impl FnOnce(&mut Machine),
    ) -> &mut Directed {
        let World { machine, length, bytes } = world;
        let mut left = machine;
        change(&mut left);
        let told = Answer { stop, count, address, machine: left, bytes: bytes.clone() };
        self.all.push(Directed { call: Call { name: name.to_string(), request, machine, length, bytes }, told });
        self.all.last_mut().unwrap()
    }

    fn step(&mut self, name: &str, world: World, stop: u64, change: impl FnOnce(&mut Machine)) -> &mut Directed {
        self.add(&format!("step: {name}"), Request::Step, world, (stop, 0, 0), change)
    }

    fn run(
        &mut self,
        name: &str,
        world: World,
        budget: u64,
        (stop, count): (u64, u64),
        change: impl FnOnce(&mut Machine),
    ) -> &mut Directed {
        self.add(&format!("run: {name}"), Request::Run(budget), world, (stop, count, 0), change)
    }

    fn resume(&mut self, name: &str, world: World, value: u64, stop: u64, change: impl FnOnce(&mut Machine)) {
        self.add(&format!("resume: {name}"), Request::Resume(value), world, (stop, 0, 0), change);
    }

    /// "Enter: mode 1, options stored, occurred cleared. The jump form sets pc to rs2."
    fn enters(&mut self) {
        let options = |value: u64| move |m: &mut Machine| m.x[5] = value;
        let entered = |value: u64, pc: u64| {
            move |m: &mut Machine| {
                m.mode = 1;
                m.options = value;
                m.fault.occurred = 0;
                m.pc = pc;
            }
        };
        for value in [0, 1, 2, 4, 8, 13, 15] {
            self.step(&format!("enter, options {value}"), outside(hfi(ENTER)).with(options(value)), 0, entered(value, 0x44));
        }
        self.step("enter, options of x0", outside(hfi_fields(ENTER, 0, 0, 0)), 0, entered(0, 0x44));
        self.step("enter, nothing had occurred", outside(hfi(ENTER)).with(options(3)).with(|m| m.fault.occurred = 0), 0, entered(3, 0x44));
        let bare = outside(hfi(ENTER)).with(options(7)).with(|m| m.regions = Default::default());
        self.step("enter, no region at all", bare, 0, entered(7, 0x44));
        for target in [0, 0x80, 0x44, 0x8000_0000, 1 << 48, ALL - 3] {
            let world = outside(hfi(ENTER_JUMP)).with(options(5)).with(|m| m.x[6] = target);
            self.step(&format!("enter with jump to {target:x}"), world, 0, entered(5, target));
        }
        let both = outside(hfi_fields(ENTER_JUMP, 0, 5, 5)).with(options(12));
        self.step("enter with jump, one register for both", both, 0, entered(12, 12));
        self.step("enter with jump, x0 for both", outside(hfi_fields(ENTER_JUMP, 0, 0, 0)), 0, entered(0, 0));
    }

    /// Questions 4, 7 and 9 of ordinary words.
    fn asked(&mut self) {
        for (place, world) in [("outside", outside as fn(u32) -> World), ("inside", inside)] {
            for pc in [0x41, 0x43] {
                self.step(&format!("{place}, pc {pc:x}"), world(NOP).with(|m| m.pc = pc), 10, unchanged);
            }
            self.step(&format!("{place}, pc 42"), world(NOP).with(|m| m.pc = 0x42), 13, unchanged);
            for word in [0, 0xffff_ffff, 0x0000_100f, 0x0400_015b] {
                self.step(&format!("{place}, illegal word {word:x}"), world(word), 13, unchanged);
            }
            self.step(&format!("{place}, jal to a half word"), world(0x0020_006f), 0, |m| m.pc = 0x42);
            self.step(&format!("{place}, jalr to a half word"), world(i_type(0x67, 0, 1, 0, 6)), 0, |m| (m.x[1], m.pc) = (0x44, 6));
            self.step(&format!("{place}, branch to a half word"), world(0x0000_0363), 0, |m| m.pc = 0x46);
            self.step(&format!("{place}, branch not taken to a half word"), world(0x0002_8363), 0, |m| m.pc = 0x44);
            self.step(&format!("{place}, ebreak"), world(EBREAK), 19, unchanged);
        }
    }

    fn enters_refused(&mut self) {
        let options = |value: u64| move |m: &mut Machine| m.x[5] = value;
        for value in [16, 1 << 32, (1 << 32) + 1, 1 << 63, ALL] {
            self.step(&format!("enter, options operand {value:x}"), outside(hfi(ENTER)).with(options(value)), 14, unchanged);
            let world = outside(hfi(ENTER_JUMP)).with(options(value)).with(|m| m.x[6] = 0x80);
            self.step(&format!("enter with jump, options operand {value:x}"), world, 14, unchanged);
        }
        for target in [0x81, 0x83, ALL] {
            let world = outside(hfi(ENTER_JUMP)).with(options(5)).with(|m| m.x[6] = target);
            self.step(&format!("enter with jump to {target:x}, no multiple of 2"), world, 15, unchanged);
        }
        let worst = outside(hfi(ENTER_JUMP)).with(options(16)).with(|m| m.x[6] = 0x81);
        self.step("enter with jump, operand 16 and a misaligned target", worst, 14, unchanged);
        for (word, form) in [(ENTER, "enter"), (ENTER_JUMP, "enter with jump")] {
            for lock in [0, 1] {
                let world = inside(hfi(word)).with(options(3)).with(|m| m.x[6] = 0x80).with(|m| m.options = lock);
                self.step(&format!("{form} in HFI mode, lock {lock}"), world, 23, unchanged);
            }
        }
    }

    /// "Exit: mode 0, reason 1, exit pc is this pc; then pc is the handler if exits are redirected, else pc + 4."
    fn exits(&mut self) {
        let left = |pc: u64| {
            move |m: &mut Machine| {
                m.mode = 0;
                m.reason = 1;
                m.exit_pc = 0x40;
                m.pc = pc;
            }
        };
        for options in 0..16 {
            let pc = if options & 4 == 4 { 0x2460 } else { 0x44 };
            let world = || inside(hfi(EXIT)).with(|m| m.options = options);
            self.step(&format!("exit, options {options}"), world(), 0, left(pc));
            self.run(&format!("exit, options {options}"), world(), 5, (20, 1), left(pc));
        }
        for handler in [0, 0x3fff_ffff_ffff_fffc] {
            let world = inside(hfi(EXIT)).with(|m| (m.options, m.handler) = (4, handler));
            self.step(&format!("exit, redirected to {handler:x}"), world, 0, left(handler));
        }
        for options in [0, 4, 15] {
            let world = outside(hfi(EXIT)).with(|m| m.options = options);
            self.step(&format!("exit outside, options {options}"), world, 24, unchanged);
        }
        self.run("exit outside", outside(hfi(EXIT)), 5, (24, 0), unchanged);
    }

    /// "an h-word outside HFI mode" keeps 14, whatever region 1 says.
    fn h_words_outside(&mut self) {
        for funct3 in 0..7 {
            self.step(&format!("h-load {funct3} outside"), outside(hload(funct3, 7, 8)), 14, unchanged);
        }
        for funct3 in 0..4 {
            self.step(&format!("h-store {funct3} outside"), outside(hstore(funct3, 7, 8)), 14, unchanged);
        }
        let bare = |word: u32| outside(word).with(|m| m.regions[0] = Region::default());
        self.step("h-load outside, no region 1", bare(hload(3, 7, 8)), 14, unchanged);
        self.step("h-store outside, no region 1", bare(hstore(3, 7, 8)), 14, unchanged);
        let locked = |word: u32| outside(word).with(|m| m.options = 1);
        self.step("h-load outside, lock bit set", locked(hload(3, 7, 8)), 14, unchanged);
        self.step("h-store outside, lock bit set", locked(hstore(3, 7, 8)), 14, unchanged);
    }

    /// "funct7 3 to 9, 11 or 12 in HFI mode when locked; set handler in HFI mode, locked or unlocked".
    fn locks(&mut self) {
        for funct7 in SELECT..=RESET {
            let world = |base: World| base.with(|m| (m.x[5], m.selector) = (1, 2));
            let done = |m: &mut Machine| region_word(m, funct7);
            let outside_locked = world(outside(hfi(funct7))).with(|m| m.options = 1);
            self.step(&format!("funct7 {funct7} outside, lock bit set"), outside_locked, 0, done);
            let unlocked = world(inside(hfi(funct7))).with(|m| m.options = 14);
            let name = format!("funct7 {funct7} inside, unlocked");
            if funct7 == SET_HANDLER {
                self.step(&name, unlocked, 25, unchanged);
            } else {
                self.step(&name, unlocked, 0, done);
            }
            let locked = world(inside(hfi(funct7))).with(|m| m.options = 1);
            self.step(&format!("funct7 {funct7} inside, locked"), locked, 25, unchanged);
        }
    }

    /// Select, set and get; "a selected number not 1 to 3; funct7 4 to 9 with selector 0". With Job 7 it goes up to 10.
    fn regions(&mut self) {
        for number in 1..=10 {
            let chosen = |m: &mut Machine| (m.selector, m.pc) = (number, 0x44);
            self.step(&format!("select {number:x}"), outside(hfi(SELECT)).with(|m| m.x[5] = number), 0, chosen);
        }
        for number in [4, 5, 10] {
            let world = inside(hfi(SELECT)).with(|m| (m.x[5], m.options) = (number, 0));
            self.step(&format!("select {number:x} inside"), world, 0, |m| (m.selector, m.pc) = (number, 0x44));
        }
        for number in [0, 11, 12, (1 << 32) + 1, 1 << 63, ALL] {
            self.step(&format!("select {number:x}"), outside(hfi(SELECT)).with(|m| m.x[5] = number), 14, unchanged);
            let world = inside(hfi(SELECT)).with(|m| (m.x[5], m.options) = (number, 0));
            self.step(&format!("select {number:x} inside"), world, 14, unchanged);
        }
        for selector in 1..=3 {
            for funct7 in SET_BASE..=GET_PERMISSION {
                let value = if funct7 == SET_PERMISSION { [1, 2, 4][selector - 1] } else { ALL - selector as u64 };
                let world = outside(hfi(funct7)).with(|m| (m.selector, m.x[5]) = (selector as u64, value));
                self.step(&format!("funct7 {funct7}, selector {selector}"), world, 0, |m| region_word(m, funct7));
            }
        }
        for funct7 in SET_BASE..=GET_PERMISSION {
            let world = outside(hfi(funct7)).with(|m| m.x[5] = 0);
            self.step(&format!("funct7 {funct7}, selector 0"), world, 14, unchanged);
            let world = inside(hfi(funct7)).with(|m| (m.x[5], m.options) = (0, 0));
            self.step(&format!("funct7 {funct7} inside, selector 0"), world, 14, unchanged);
        }
        self.step("get base into x0", outside(hfi_fields(GET_BASE, 0, 0, 0)).with(|m| m.selector = 1), 0, |m| m.pc = 0x44);
        self.step("get base into x0, selector 0", outside(hfi_fields(GET_BASE, 0, 0, 0)), 14, unchanged);
    }

    /// "a permission bit the region lacks"
    fn permissions(&mut self) {
        for value in [3, 8] {
            let large = outside(hfi(SET_PERMISSION)).with(|m| (m.selector, m.x[5], m.regions[0].permission) = (1, value, 0xb));
            self.step(&format!("set permission {value:x} over b"), large, 0, move |m| {
                m.regions[0].permission = value;
                m.pc = 0x44;
            });
        }
        let largest: [u64; 3] = [0xb, 3, 4];
        for selector in 1..=3usize {
            let world = |value: u64| {
                let base = outside(hfi(SET_PERMISSION));
                base.with(|m| (m.selector, m.x[5]) = (selector as u64, value))
            };
            for value in [0, largest[selector - 1]] {
                let name = format!("set permission {value:x}, region {selector}");
                self.step(&name, world(value), 0, |m| region_word(m, SET_PERMISSION));
            }
            for place in [0, 1, 2, 3, 4, 32, 63].into_iter().filter(|place| largest[selector - 1] >> place & 1 == 0) {
                let name = format!("set permission bit {place}, region {selector} lacks it");
                self.step(&name, world(1 << place | largest[selector - 1]), 14, unchanged);
            }
        }
    }

    /// "Set handler clears bits 0, 1, 62, 63. Reset zeroes regions and selector."
    fn handler_and_reset(&mut self) {
        for (value, kept) in [(ALL, 0x3fff_ffff_ffff_fffc), (3, 0), (1 << 62 | 1 << 63 | 4, 4), (0x2464, 0x2464)] {
            let world = outside(hfi(SET_HANDLER)).with(|m| m.x[5] = value);
            self.step(&format!("set handler {value:x}"), world, 0, |m| (m.handler, m.pc) = (kept, 0x44));
        }
        self.step("get handler into x0", outside(hfi_fields(GET_HANDLER, 0, 0, 0)), 0, |m| m.pc = 0x44);
        for selector in [0, 3] {
            let world = outside(hfi(RESET)).with(|m| m.selector = selector);
            self.step(&format!("reset, selector {selector}"), world, 0, |m| region_word(m, RESET));
        }
    }

    /// "ECALL in HFI mode with bit 1 set: mode 0, reason 2, exit pc is this pc, pc is the handler."
    fn system(&mut self) {
        for options in 0..16 {
            let world = |base: World| base.with(|m| (m.options, m.reason) = (options, 1));
            self.step(&format!("ECALL outside, options {options}"), world(outside(ECALL)), 18, unchanged);
            let redirected = |m: &mut Machine| (m.mode, m.reason, m.exit_pc, m.pc) = (0, 2, 0x40, 0x2460);
            let name = format!("ECALL inside, options {options}");
            if options & 2 == 2 {
                self.step(&name, world(inside(ECALL)), 0, redirected);
                self.run(&name, world(inside(ECALL)), 5, (20, 1), redirected);
            } else {
                self.step(&name, world(inside(ECALL)), 18, unchanged);
                self.run(&name, world(inside(ECALL)), 5, (18, 0), unchanged);
            }
        }
        for options in [0, 2, 15] {
            self.step(&format!("EBREAK outside, options {options}"), outside(EBREAK).with(|m| m.options = options), 19, unchanged);
            self.step(&format!("EBREAK inside, options {options}"), inside(EBREAK).with(|m| m.options = options), 19, unchanged);
        }
    }

    /// Resuming: "puts a given value in x10 and adds 4 to pc; it asks question 3 only".
    fn resumes(&mut self) {
        for (pc, next) in [(0, 4), (0x40, 0x44), (0x41, 0x45), (0x43, 0x47), (ALL - 3, 0), (ALL - 2, 1), (ALL, 3), (0xffff_fffc, 1 << 32)] {
            for mode in [0, 1] {
                let world = outside(ECALL).with(|m| (m.pc, m.mode) = (pc, mode));
                self.resume(&format!("pc {pc:x}, mode {mode}"), world, 0x55, 0, |m| (m.pc, m.x[10]) = (next, 0x55));
            }
        }
        for value in [0, 1, 1 << 63, ALL] {
            self.resume(&format!("value {value:x}"), inside(ECALL), value, 0, |m| (m.pc, m.x[10]) = (0x44, value));
        }
        self.resume("no ECALL there", inside(NOP), 9, 0, |m| (m.pc, m.x[10]) = (0x44, 9));
        self.resume("no memory at all", outside(NOP).length(0), 9, 0, |m| (m.pc, m.x[10]) = (0x44, 9));
    }

    /// Each clause of well formed broken by itself, for each request.
    fn ill_formed(&mut self) {
        for (name, spoil) in broken() {
            let world = || {
                let mut world = outside(NOP);
                spoil(&mut world.machine);
                world
            };
            self.step(&format!("{name}, not well formed"), world(), 3, unchanged);
            self.run(&format!("{name}, not well formed"), world(), 5, (3, 0), unchanged);
            self.resume(&format!("{name}, not well formed"), world(), 7, 3, unchanged);
        }
        // Ill-formed before Job 7. The word after the NOP is 0.
        let ran = |m: &mut Machine| m.pc = 0x44;
        self.run("selector 4, well formed, budget 5", outside(NOP).with(|m| m.selector = 4), 5, (13, 1), ran);
        self.run("fault region 4, well formed, budget 5", outside(NOP).with(|m| m.fault.region = 4), 5, (13, 1), ran);
        let two = |budget: u64| format!("budget {budget:x}");
        for budget in [1_000_001, 1 << 32, ALL] {
            self.run(&two(budget), outside(NOP), budget, (2, 0), unchanged);
            self.run(&format!("{}, not well formed", two(budget)), outside(NOP).with(|m| m.mode = 2), budget, (2, 0), unchanged);
        }
        for budget in [0, 1_000_000] {
            self.run(&format!("{}, not well formed", two(budget)), outside(NOP).with(|m| m.x[0] = 1), budget, (3, 0), unchanged);
        }
        self.run("budget 0, pc misaligned", outside(NOP).with(|m| m.pc = 0x41), 0, (21, 0), unchanged);
        self.run("budget 0, no memory", inside(NOP).length(0), 0, (21, 0), unchanged);
        self.run("budget 1,000,000", outside(ECALL), 1_000_000, (18, 0), unchanged);
    }

    /// The largest good value of each field, for each request.
    fn well_formed(&mut self) {
        for (name, set) in largest() {
            let world = || {
                let mut world = outside(NOP);
                set(&mut world.machine);
                world
            };
            self.step(&format!("{name}, well formed"), world(), 0, |m| m.pc = 0x44);
            self.run(&format!("{name}, well formed"), world(), 1, (21, 1), |m| m.pc = 0x44);
            self.resume(&format!("{name}, well formed"), world(), 7, 0, |m| (m.pc, m.x[10]) = (0x44, 7));
        }
    }

    /// "12 and 17 also give the first absent address, counted from the access's start".
    fn absent_words(&mut self) {
        for length in 0x40..0x44 {
            for (place, base) in [("outside", outside(NOP)), ("inside", inside(NOP))] {
                let name = format!("step: word at 40 {place}, memory ends at {length:x}");
                self.add(&name, Request::Step, base.length(length), (12, 0, length as u64), unchanged);
            }
        }
        let empty = outside(NOP).length(0).with(|m| m.pc = 0);
        self.add("step: no memory", Request::Step, empty.clone(), (12, 0, 0), unchanged);
        self.add("run: no memory", Request::Run(5), empty, (12, 0, 0), unchanged);
        for pc in [0x800, 1 << 48, 1 << 63, ALL - 3] {
            let world = outside(NOP).with(|m| m.pc = pc);
            self.add(&format!("step: pc {pc:x} outside"), Request::Step, world, (12, 0, pc), unchanged);
        }
        let last = outside(NOP).put(0xfffc, NOP).length(ROOM).with(|m| m.pc = 0xfffc);
        self.add("run: off the end of 65,536 bytes", Request::Run(5), last, (12, 1, 0x10000), |m| m.pc = 0x10000);
        let back = outside(NOP).put(0, 0xffdff06f).with(|m| m.pc = 0);
        self.add("run: a jump to pc - 4 wraps", Request::Run(5), back, (12, 1, ALL - 3), |m| m.pc = ALL - 3);
        let tiny = inside(NOP).length(0x41).with(|m| m.regions[2] = Region { base: 0x40, bound: mask(1), permission: 4 });
        self.add("step: 12 before 11: byte 41 absent, 42 refused", Request::Step, tiny, (12, 0, 0x41), unchanged);
    }

    fn absent_data(&mut self) {
        let ends = |word: u32, mode: u64, length: usize| outside(word).length(length).with(|m| (m.mode, m.x[8]) = (mode, 0x440));
        for mode in [0, 1] {
            for (name, word, size) in [
                ("lb", load(0, 7, 8, 0), 1),
                ("lhu", load(5, 7, 8, 0), 2),
                ("lw", load(2, 7, 8, 0), 4),
                ("ld", load(3, 7, 8, 0), 8),
                ("sb", store(0, 7, 8, 0), 1),
                ("sh", store(1, 7, 8, 0), 2),
                ("sw", store(2, 7, 8, 0), 4),
                ("sd", store(3, 7, 8, 0), 8),
            ] {
                for present in [0, size / 2, size - 1] {
                    let name = format!("step: {name} at 440, mode {mode}, memory ends after {present} bytes of it");
                    let world = ends(word, mode, 0x440 + present as usize);
                    self.add(&name, Request::Step, world, (17, 0, 0x440 + present), unchanged);
                }
            }
        }
        for (name, word, size) in [("hld", hload(3, 7, 8), 8), ("hlw", hload(2, 7, 8), 4), ("hsd", hstore(3, 7, 8), 8), ("hsh", hstore(1, 7, 8), 2)] {
            for present in [0, 1, size - 1] {
                let name = format!("step: {name} at 208, memory ends after {present} bytes of it");
                self.add(&name, Request::Step, inside(word).length(0x208 + present as usize), (17, 0, 0x208 + present), unchanged);
            }
        }
        for (name, word) in [("ld", load(3, 7, 0, -1)), ("sd", store(3, 7, 0, -1)), ("lh", load(1, 7, 0, -1))] {
            self.add(&format!("step: {name} at the last address"), Request::Step, outside(word), (17, 0, ALL), unchanged);
            let op = if name == "sd" { 2 } else { 1 };
            self.step(&format!("{name} at the last address inside"), inside(word), 16, |m| m.fault = fault(0, op, ALL));
        }
    }

    /// "10. Is every data byte granted? 11. Are they in memory?" And the addresses that faults give.
    fn refused(&mut self) {
        let at = |word: u32, address: u64| inside(word).with(|m| m.x[8] = address);
        let end = |word: u32| at(word, 0x4fc).length(0x4fd);
        self.step("16 before 17: ld, byte 4fd absent, 500 refused", end(load(3, 7, 8, 0)), 16, |m| m.fault = fault(0, 1, 0x500));
        self.step("16 before 17: sd, byte 4fd absent, 500 refused", end(store(3, 7, 8, 0)), 16, |m| m.fault = fault(0, 2, 0x500));
        let explicit = |word: u32| inside(word).length(0x23d);
        self.step("16 before 17: hld, byte 23d absent, 240 refused", explicit(hload(3, 7, 0x3c)), 16, |m| m.fault = fault(1, 1, 0x240));
        self.step("16 before 17: hsd, byte 23d absent, 240 refused", explicit(hstore(3, 7, 0x3c)), 16, |m| m.fault = fault(1, 2, 0x240));
        let top = |word: u32| inside(word).with(|m| m.regions[0].base = ALL);
        self.step("hld, region 1 breaks its rule, address wraps", top(hload(3, 7, 1)), 16, |m| m.fault = fault(1, 1, 0));
        self.step("hsb, region 1 breaks its rule", top(hstore(0, 7, -1)), 16, |m| m.fault = fault(1, 2, ALL - 1));
        for (base, bound) in [(0x10000, 0x18000), (0x18000, 0x10000), (0x10000, 0), (0x10000, 1 << 48)] {
            let large = inside(hload(0, 7, 0)).with(|m| m.regions[0] = Region { base, bound, permission: 0xb });
            self.step(&format!("hlb, large region {base:x}, {bound:x} breaks its rule"), large, 16, |m| m.fault = fault(1, 1, base));
        }
        self.step("hlb into x0, refused", inside(hload(0, 0, 0x40)), 16, |m| m.fault = fault(1, 1, 0x240));
        self.add("step: hlb into x0, absent", Request::Step, inside(hload(0, 0, 8)).length(0x208), (17, 0, 0x208), unchanged);
        let no_read = at(load(0, 7, 8, 0), 0x410).with(|m| m.regions[1].permission = 2);
        self.step("lb, region 2 without read", no_read, 16, |m| m.fault = fault(2, 1, 0x410));
        let no_code = inside(NOP).with(|m| m.regions[2].permission = 0);
        self.step("fetch, region 3 without execute", no_code, 11, |m| m.fault = fault(3, 3, 0x40));
    }

    /// Document 02, Job 1: "the offset of an h-prefixed word is the unsigned value of rs1 plus the signed immediate, as a
    /// whole number that does not wrap ... byte i passes when offset + i is at least 0 and below the bound."
    fn offsets_refused(&mut self) {
        for (rs1, immediate, address) in [
            // at the bound and below 0, where later bytes are inside
            (0x40, 0, 0x240),
            (0x41, -1, 0x240),
            (0x3f, 1, 0x240),
            (0x840, -2048, 0x240),
            (3, -5, 0x1fe),
            (7, -8, 0x1ff),
            (0x7f8, -2048, 0x1f8),
            // the whole register, unsigned
            (1 << 32, 8, 0x1_0000_0208),
            (1 << 48, 0, 0x1_0000_0000_0200),
            ((1 << 62) - 1, 0, 0x4000_0000_0000_01ff),
            (1 << 62, 0, 0x4000_0000_0000_0200),
            ((1 << 63) - 1, 1, 0x8000_0000_0000_0200),
            (1 << 63, 0, 0x8000_0000_0000_0200),
            (1 << 63, -2048, 0x7fff_ffff_ffff_fa00),
            (ALL, -1, 0x1fe),
            (ALL, 0, 0x1ff),
            // sums of 2^64 and more; the address is modulo 2^64
            (ALL, 1, 0x200),
            (ALL, 2047, 0x9fe),
            (ALL - 7, 8, 0x200),
            (ALL - 15, 32, 0x210),
            (ALL - 3, 0, 0x1fc),
        ] {
            for (name, word, op) in [
                ("hlbu", hload(4, 7, immediate), 1),
                ("hld", hload(3, 7, immediate), 1),
                ("hsb", hstore(0, 7, immediate), 2),
                ("hsd", hstore(3, 7, immediate), 2),
            ] {
                let name = format!("{name}, rs1 {rs1:x}, immediate {immediate}");
                self.step(&name, inside(word).with(|m| m.x[9] = rs1), 16, |m| m.fault = fault(1, op, address));
            }
        }
    }

    /// The last bytes of the region by rs1, one byte further, and offset 0 by an immediate below 0.
    fn offsets_granted(&mut self) {
        let bytes = |word: u32, rs1: u64| {
            let base = inside(word).put(0x200, 0x4433_2291).put(0x204, 0x8877_6655).put(0x238, 0x89ab_cdef).put(0x23c, 0x8123_4567);
            base.with(|m| (m.x[9], m.x[7]) = (rs1, 0x1122_3344_5566_7788))
        };
        for (name, funct3, size, last, first) in [
            ("hlb", 0, 1, 0xffff_ffff_ffff_ff81, 0xffff_ffff_ffff_ff91),
            ("hlh", 1, 2, 0xffff_ffff_ffff_8123, 0x2291),
            ("hlw", 2, 4, 0xffff_ffff_8123_4567, 0x4433_2291),
            ("hld", 3, 8, 0x8123_4567_89ab_cdef, 0x8877_6655_4433_2291),
            ("hlbu", 4, 1, 0x81, 0x91),
            ("hlhu", 5, 2, 0x8123, 0x2291),
            ("hlwu", 6, 4, 0x8123_4567, 0x4433_2291),
        ] {
            let got = |value: u64| move |m: &mut Machine| (m.x[7], m.pc) = (value, 0x44);
            self.step(&format!("{name}, the last bytes by rs1 a0"), bytes(hload(funct3, 7, -0x60 - size), 0xa0), 0, got(last));
            let beyond = bytes(hload(funct3, 7, -0x5f - size), 0xa0);
            self.step(&format!("{name}, one byte further by rs1 a0"), beyond, 16, |m| m.fault = fault(1, 1, 0x240));
            self.step(&format!("{name}, offset 0 by rs1 800"), bytes(hload(funct3, 7, -2048), 0x800), 0, got(first));
            let itself = |m: &mut Machine| (m.x[9], m.pc) = (first, 0x44);
            self.step(&format!("{name}, rd is rs1"), bytes(hload(funct3, 9, -5), 5), 0, itself);
        }
        for (name, funct3, size) in [("hsb", 0, 1), ("hsh", 1, 2), ("hsw", 2, 4), ("hsd", 3, 8)] {
            let next = |m: &mut Machine| m.pc = 0x44;
            let (value, length) = (0x1122_3344_5566_7788, size as usize);
            let last = bytes(hstore(funct3, 7, -0x60 - size), 0xa0);
            self.step(&format!("{name}, the last bytes by rs1 a0"), last, 0, next).stores(0x240 - length, length, value);
            let beyond = bytes(hstore(funct3, 7, -0x5f - size), 0xa0);
            self.step(&format!("{name}, one byte further by rs1 a0"), beyond, 16, |m| m.fault = fault(1, 2, 0x240));
            self.step(&format!("{name}, offset 0 by rs1 800"), bytes(hstore(funct3, 7, -2048), 0x800), 0, next).stores(0x200, length, value);
            self.step(&format!("{name}, rs2 is rs1"), bytes(hstore(funct3, 9, -5), 5), 0, next).stores(0x200, length, 5);
        }
    }

    /// Which register is rs1: the others hold what would be refused, or, for x0, all ones.
    fn offset_registers(&mut self) {
        for n in 1..16u32 {
            let other = if n == 6 { 5 } else { 6 };
            let world = |word: u32| {
                let base = inside(word).put(0x210, 0x8765_4321);
                base.with(|m| (1..32).for_each(|r| m.x[r] = if r as u32 == n { 8 } else { 0x1000 + r as u64 }))
            };
            if n % 2 == 1 {
                let got = move |m: &mut Machine| (m.x[other as usize], m.pc) = (0x8765_4321, 0x44);
                self.step(&format!("hlwu, rs1 is x{n}"), world(hload_by(6, other, n, 8)), 0, got);
            } else {
                let stored = 0x1000 + other as u64;
                self.step(&format!("hsh, rs1 is x{n}"), world(hstore_by(1, other, n, 8)), 0, |m| m.pc = 0x44).stores(0x210, 2, stored);
            }
        }
        let ones = |word: u32| inside(word).put(0x210, 0x8765_4321).with(|m| (1..32).for_each(|r| m.x[r] = ALL));
        self.step("hlwu, rs1 is x0, the others of ones", ones(hload_by(6, 7, 0, 0x10)), 0, |m| (m.x[7], m.pc) = (0x8765_4321, 0x44));
        self.step("hsd, rs1 is x0, the others of ones", ones(hstore_by(3, 7, 0, 0x10)), 0, |m| m.pc = 0x44).stores(0x210, 8, ALL);
        self.step("hlb, rs1 is x0, immediate -1", ones(hload_by(0, 7, 0, -1)), 16, |m| m.fault = fault(1, 1, 0x1ff));
        let off = |word: u32| outside(word).with(|m| m.x[9] = ALL);
        self.step("h-load outside, rs1 of ones", off(hload(3, 7, 1)), 14, unchanged);
        self.step("h-store outside, rs1 of ones", off(hstore(3, 7, 1)), 14, unchanged);
    }

    /// Granted by rs1 and absent, and the ends of regions that no memory fills.
    fn offsets_absent(&mut self) {
        let pairs = |immediate: i32| [("hld", hload(3, 7, immediate), 1), ("hsd", hstore(3, 7, immediate), 2)];
        for (name, word, _) in pairs(-8) {
            for present in [0, 1, 7] {
                let world = inside(word).length(0x208 + present as usize).with(|m| m.x[9] = 0x10);
                let name = format!("step: {name} at 208 by rs1, memory ends after {present} bytes of it");
                self.add(&name, Request::Step, world, (17, 0, 0x208 + present), unchanged);
            }
        }
        let large = |word: u32, region: (u64, u64), rs1: u64| {
            inside(word).with(|m| (m.regions[0], m.x[9]) = (Region { base: region.0, bound: region.1, permission: 0xb }, rs1))
        };
        let (whole, upper, top) = ((0, 1 << 48), (1 << 47, 1 << 47), 1u64 << 48);
        for (name, word, op) in pairs(0) {
            for (region, rs1, absent) in [(whole, 0x7fc, 0x800), (whole, top - 8, top - 8), (upper, 0, 1 << 47), (upper, (1 << 47) - 8, top - 8)] {
                let name = format!("step: {name}, large region {:x}, rs1 {rs1:x}, absent", region.0);
                self.add(&name, Request::Step, large(word, region, rs1), (17, 0, absent), unchanged);
            }
            for (region, rs1) in [(whole, top - 7), (whole, top - 1), (whole, top), (upper, (1 << 47) - 7), (upper, 1 << 47)] {
                let name = format!("{name}, large region {:x}, rs1 {rs1:x}", region.0);
                self.step(&name, large(word, region, rs1), 16, |m| m.fault = fault(1, op, top));
            }
            let far = (whole, 1 << 63);
            self.step(&format!("{name}, large region 0, rs1 2^63"), large(word, far.0, far.1), 16, |m| m.fault = fault(1, op, 1 << 63));
        }
        let full = (0, 0x10000);
        let last = large(hload(4, 7, 0), full, 0xffff).length(ROOM).put(0xfffc, 0x9a00_0000);
        self.step("hlbu, the last byte of 65,536", last, 0, |m| (m.x[7], m.pc) = (0x9a, 0x44));
        let last = large(hstore(3, 7, -8), full, 0x10000).length(ROOM);
        self.step("hsd, the last bytes of 65,536", last, 0, |m| m.pc = 0x44).stores(0xfff8, 8, 0x107);
        let past = large(hstore(3, 7, -7), full, 0x10000).length(ROOM);
        self.step("hsd, one byte past 65,536", past, 16, |m| m.fault = fault(1, 2, 0x10000));
        let short = large(hstore(3, 7, -7), full, 0x10000).length(ROOM - 1);
        self.step("hsd, byte ffff absent, 10000 refused", short, 16, |m| m.fault = fault(1, 2, 0x10000));
    }

    /// "With rule and permission as before": regions that break their rule, some near 2^64.
    fn offsets_of_broken_regions(&mut self) {
        for (base, bound, permission, rs1, immediate, address) in [
            (ALL - 15, 16, 3, 0, 0, ALL - 15),
            (ALL - 15, 16, 3, 15, 0, ALL),
            (ALL - 15, 16, 3, 17, -1, 0),
            (ALL - 15, 16, 3, 1 << 63, 0, 0x7fff_ffff_ffff_fff0),
            (ALL - 15, 16, 3, ALL, 0, ALL - 16),
            (ALL - 15, 16, 3, ALL, 1, ALL - 15),
            (ALL, ALL, 3, 3, -1, 1),
            (0, ALL, 3, 5, 0, 5),
            (0, ALL, 3, ALL - 16, 0, ALL - 16),
            (0, 0xffff_ffff_ffff_0000, 0xb, 0x208, 0, 0x208),
            (0, 0xffff_ffff_ffff_0000, 0xb, 1 << 63, 0, 1 << 63),
            (0xffff_ffff_ffff_0000, 0x10000, 0xb, 0x10000, 8, 8),
            (0x200, 0x40, 0, 8, 8, 0x210),
        ] {
            for (name, word, op) in [("hlb", hload(0, 7, immediate), 1), ("hsw", hstore(2, 7, immediate), 2)] {
                let world = inside(word).with(|m| (m.regions[0], m.x[9]) = (Region { base, bound, permission }, rs1));
                let name = format!("{name}, region {base:x}, {bound:x}, {permission:x}, rs1 {rs1:x}, immediate {immediate}");
                self.step(&name, world, 16, |m| m.fault = fault(1, op, address));
            }
        }
        let read = |word: u32| inside(word).with(|m| (m.regions[0].permission, m.x[9]) = (1, 8));
        self.step("hsb by rs1, region 1 without write", read(hstore(0, 7, 8)), 16, |m| m.fault = fault(1, 2, 0x210));
        let write = |word: u32| inside(word).with(|m| (m.regions[0].permission, m.x[9]) = (2, 8));
        self.step("hlb by rs1, region 1 without read", write(hload(0, 7, 8)), 16, |m| m.fault = fault(1, 1, 0x210));
    }

    /// Runs whose h-words go by what the steps before have put in rs1.
    fn offsets_in_runs(&mut self) {
        const BACK: u32 = 0xff9f_f06f; // jal x0, -8
        let walk = |word: u32| inside(word).with(|m| m.options = 1).put(0x44, addi(9, 9, 8)).put(0x48, BACK);
        let loads = walk(hload(3, 7, 0)).put(0x238, 0x89ab_cdef).put(0x23c, 0x8123_4567);
        self.run("hld over 64 bytes, then refused", loads, 50, (16, 24), |m| {
            (m.x[9], m.x[7], m.fault) = (0x40, 0x8123_4567_89ab_cdef, fault(1, 1, 0x240));
        });
        let stored = self.run("hsd over 64 bytes, then refused", walk(hstore(3, 9, 0)), 50, (16, 24), |m| {
            (m.x[9], m.fault) = (0x40, fault(1, 2, 0x240));
        });
        (0..8).for_each(|n| stored.stores(0x200 + 8 * n, 8, 8 * n as u64));
        let chain = inside(hload(4, 9, 0)).put(0x44, hload(4, 9, 0)).put(0x48, hload(4, 9, 0)).put(0x200, 0x3f).put(0x23c, 0x4000_0000);
        self.run("hlbu, each the next one's offset, then refused", chain, 50, (16, 2), |m| {
            (m.pc, m.x[9], m.fault) = (0x48, 0x40, fault(1, 1, 0x240));
        });
        let enter = outside(hfi(ENTER)).with(|m| (m.x[5], m.x[9]) = (1, ALL)).put(0x44, hload(3, 7, 1));
        self.run("outside, enters, hld by rs1 of ones and 1 is refused", enter, 50, (16, 1), |m| {
            (m.mode, m.options, m.pc, m.fault) = (1, 1, 0x44, fault(1, 1, 0x200));
        });
    }

    /// Document 02, Job 2: what the 13 words make of their operands, outside HFI mode.
    fn m_values(&mut self) {
        for (a, b, results) in M_VALUES {
            for (row, result) in M_ROWS.into_iter().zip(results) {
                let world = outside(m_word(row, 7, 5, 6)).with(|m| (m.x[5], m.x[6]) = (a, b));
                self.step(&format!("{} {a:x}, {b:x}", row.0), world, 0, |m| (m.x[7], m.pc) = (result, 0x44));
            }
        }
    }

    /// Registers that are one: operands are those before the step, and x0 stays 0.
    fn m_registers(&mut self) {
        let (a, b, results) = M_VALUES[2];
        // -20 with itself, and with x0 as the second
        let itself = [400, 0, minus(20), minus(40), 1, 1, 0, 0, 400, 1, 1, 0, 0];
        let by_zero = [0, 0, 0, 0, ALL, ALL, minus(20), minus(20), 0, ALL, ALL, minus(20), minus(20)];
        for (n, row) in M_ROWS.into_iter().enumerate() {
            let world = |rd: u32, rs1: u32, rs2: u32| {
                let base = if n % 2 == 0 { outside } else { inside };
                base(m_word(row, rd, rs1, rs2)).with(|m| (m.x[5], m.x[6], m.x[8]) = (a, b, minus(20)))
            };
            let set = |rd: usize, value: u64| move |m: &mut Machine| (m.x[rd], m.pc) = (value, 0x44);
            self.step(&format!("{} into x0", row.0), world(0, 5, 6), 0, |m| m.pc = 0x44);
            self.step(&format!("{}, rd is rs1", row.0), world(5, 5, 6), 0, set(5, results[n]));
            self.step(&format!("{}, rd is rs2", row.0), world(6, 5, 6), 0, set(6, results[n]));
            self.step(&format!("{}, rs1 is rs2", row.0), world(31, 8, 8), 0, set(31, itself[n]));
            self.step(&format!("{}, one register for all", row.0), world(8, 8, 8), 0, set(8, itself[n]));
            self.step(&format!("{}, rs1 is x0", row.0), world(7, 0, 6), 0, set(7, 0));
            self.step(&format!("{}, rs2 is x0", row.0), world(7, 8, 0), 0, set(7, by_zero[n]));
            self.step(&format!("{}, x0 for all", row.0), world(0, 0, 0), 0, |m| m.pc = 0x44);
        }
    }

    /// "These words are no longer stopped with 13"; all that is asked of another word is asked of them.
    fn m_asked(&mut self) {
        for (n, row) in M_ROWS.into_iter().enumerate() {
            let (a, b, results) = M_VALUES[n];
            let word = m_word(row, 7, 5, 6);
            let operands = |base: World| base.with(|m| (m.x[5], m.x[6]) = (a, b));
            let done = |m: &mut Machine| (m.x[7], m.pc) = (results[n], 0x44);
            self.step(&format!("{}, the last word of memory", row.0), operands(outside(word).length(0x44)), 0, done);
            self.step(&format!("{} inside, options {n}", row.0), operands(inside(word)).with(|m| m.options = n as u64), 0, done);
            let bare = |m: &mut Machine| (m.regions[0], m.regions[1]) = Default::default();
            self.step(&format!("{} locked, no data region", row.0), operands(inside(word)).with(bare).with(|m| m.options = 1), 0, done);
            let length = 0x40 + n % 4;
            let short = format!("step: {}, memory ends at {length:x}", row.0);
            self.add(&short, Request::Step, operands(outside(word)).length(length), (12, 0, length as u64), unchanged);
            let barred = operands(inside(word)).with(|m| m.regions[2].permission = 0);
            self.step(&format!("{}, region 3 without execute", row.0), barred, 11, |m| m.fault = fault(3, 3, 0x40));
            let half = operands(inside(word)).with(|m| m.regions[2] = Region { base: 0x40, bound: mask(1), permission: 4 });
            self.step(&format!("{}, its third byte is refused", row.0), half, 11, |m| m.fault = fault(0, 3, 0x42));
            self.step(&format!("{}, pc 3f", row.0), operands(outside(word)).with(|m| m.pc = 0x3f), 10, unchanged);
            self.step(&format!("{}, not well formed", row.0), operands(outside(word)).with(|m| m.selector = 11), 3, unchanged);
            self.run(&format!("{}, budget 0", row.0), operands(outside(word)), 0, (21, 0), unchanged);
        }
    }

    /// Words beside them that stay illegal: no high half in 32 bits, and other funct7.
    fn m_neighbours(&mut self) {
        for (place, world) in [("outside", outside as fn(u32) -> World), ("inside", inside)] {
            for funct3 in 1..4 {
                let word = m_word(("", 0x3b, funct3), 7, 5, 6);
                self.step(&format!("{place}, OP-32 with funct7 1, funct3 {funct3}"), world(word), 13, unchanged);
            }
            for bit in 26..32u32 {
                for row in [M_ROWS[0], M_ROWS[4], M_ROWS[8], M_ROWS[12]] {
                    let word = m_word(row, 7, 5, 6) | 1 << bit;
                    self.step(&format!("{place}, {} with bit {bit}", row.0), world(word), 13, unchanged);
                }
            }
        }
    }

    /// Runs: products and quotients of what the steps before have left, in and out of HFI mode.
    fn m_runs(&mut self) {
        let [mul, mulhu, divu, remu] = [0, 3, 5, 7].map(|n| M_ROWS[n]);
        // 5 times 4 times ... times 1
        const BACK: u32 = 0xfe02_9ce3; // bne x5, x0, -8
        let factorial = outside(m_word(mul, 7, 7, 5)).put(0x44, addi(5, 5, -1)).put(0x48, BACK).put(0x4c, ECALL);
        self.run("5 factorial", factorial.with(|m| (m.x[5], m.x[7]) = (5, 1)), 50, (18, 15), |m| (m.x[5], m.x[7], m.pc) = (0, 120, 0x4c));
        // the greatest common divisor of 48 and 36: 48, 36, 12, 0
        const AGAIN: u32 = 0xfe03_1ae3; // bne x6, x0, -12
        let common = outside(m_word(remu, 7, 5, 6)).put(0x44, addi(5, 6, 0)).put(0x48, addi(6, 7, 0)).put(0x4c, AGAIN).put(0x50, EBREAK);
        self.run("greatest common divisor of 48 and 36", common.with(|m| (m.x[5], m.x[6]) = (48, 36)), 50, (19, 8), |m| {
            (m.x[5], m.x[6], m.x[7], m.pc) = (12, 0, 0, 0x50);
        });
        // a product's two halves in HFI mode, then a quotient outside
        let crossing = outside(hfi(ENTER)).with(|m| (m.x[5], m.x[6]) = (1, ALL));
        let crossing = crossing.put(0x44, m_word(mulhu, 7, 6, 6)).put(0x48, m_word(mul, 8, 6, 6)).put(0x4c, hfi(EXIT));
        let crossing = crossing.put(0x50, m_word(divu, 6, 6, 7)).put(0x54, ECALL);
        self.run("enters, multiplies, exits, divides", crossing, 50, (18, 5), |m| {
            (m.options, m.reason, m.exit_pc, m.pc) = (1, 1, 0x4c, 0x54);
            (m.x[7], m.x[8], m.x[6], m.fault.occurred) = (minus(2), 1, 1, 0);
        });
        let divide = inside(m_word(divu, 7, 5, 0)).put(0x44, hfi(EXIT)).with(|m| m.options = 1);
        self.run("divides by zero, exits", divide, 50, (20, 2), |m| {
            (m.x[7], m.mode, m.reason, m.exit_pc, m.pc) = (ALL, 0, 1, 0x44, 0x48);
        });
        let last = outside(NOP).put(0xfffc, m_word(mul, 7, 5, 6)).length(ROOM).with(|m| (m.pc, m.x[5], m.x[6]) = (0xfffc, 3, 4));
        self.add("run: mul in the last word, then off the end", Request::Run(5), last, (12, 1, 0x10000), |m| {
            (m.x[7], m.pc) = (12, 0x10000);
        });
        let fetched = outside(store(2, 8, 0, 0x44)).with(|m| (m.x[5], m.x[6], m.x[8]) = (6, 7, m_word(mul, 7, 5, 6) as u64));
        let kept = m_word(mul, 7, 5, 6) as u64;
        self.run("stores a mul as its next word", fetched, 2, (21, 2), |m| (m.x[7], m.pc) = (42, 0x48)).stores(0x44, 4, kept);
    }

    /// "Outside HFI mode regions are not consulted."
    fn not_consulted(&mut self) {
        let bare = |word: u32| outside(word).with(|m| (m.regions, m.x[8]) = (Default::default(), 0x700));
        self.step("no region outside: fetch", bare(NOP), 0, |m| m.pc = 0x44);
        let double = |base: World| base.put(0x700, 0x9abc_def0).put(0x704, 0x8123_4567);
        let read = |m: &mut Machine| (m.x[7], m.pc) = (0x8123_4567_9abc_def0, 0x44);
        self.step("no region outside: ld", double(bare(load(3, 7, 8, 0))), 0, read);
        self.step("no region outside: sd", bare(store(3, 7, 8, 0)), 0, |m| m.pc = 0x44).stores(0x700, 8, 0x107);
        let misaligned = |pc: u64| move |m: &mut Machine| m.pc = pc;
        for pc in [0x41, 0x43, ALL] {
            self.step(&format!("pc {pc:x} outside"), outside(NOP).with(misaligned(pc)), 10, unchanged);
            self.step(&format!("pc {pc:x} inside"), inside(NOP).with(misaligned(pc)), 10, unchanged);
        }
        let low = outside(NOP).with(|m| m.regions[2].permission = 0);
        self.step("region 3 without execute outside", low, 0, |m| m.pc = 0x44);
    }

    /// "After a step of a run that began in HFI mode: is the mode still on?" It is the run that began there.
    fn crossings(&mut self) {
        let begin = |options: u64| outside(hfi(ENTER)).with(|m| (m.x[5], m.handler) = (options, 0x80)).put(0x44, addi(10, 0, 5));
        let ins = |m: &mut Machine, options: u64| {
            (m.mode, m.options, m.x[10]) = (1, options, 5);
            m.fault.occurred = 0;
        };
        let out = |m: &mut Machine, options: u64, reason: u64, pc: u64| {
            (m.options, m.reason, m.exit_pc, m.pc, m.x[10]) = (options, reason, 0x48, pc, 5);
            m.fault.occurred = 0;
        };
        let exit = |options: u64| begin(options).put(0x48, hfi(EXIT)).put(0x4c, ECALL).put(0x80, EBREAK);
        self.run("outside, enters, exits, goes on to ECALL", exit(8), 50, (18, 3), |m| out(m, 8, 1, 0x4c));
        self.run("outside, enters, exits to the handler, goes on to EBREAK", exit(4), 50, (19, 3), |m| out(m, 4, 1, 0x80));
        self.run("outside, enters locked, exits, goes on", exit(1), 50, (18, 3), |m| out(m, 1, 1, 0x4c));
        self.run("outside, enters, exits with the last step", exit(8), 3, (21, 3), |m| out(m, 8, 1, 0x4c));
        let call = |options: u64| begin(options).put(0x48, ECALL).put(0x80, addi(11, 0, 6)).put(0x84, EBREAK);
        self.run("outside, enters, ECALL inside", call(0), 50, (18, 2), |m| {
            ins(m, 0);
            m.pc = 0x48;
        });
        self.run("outside, enters, ECALL redirected, goes on at the handler", call(2), 50, (19, 4), |m| {
            out(m, 2, 2, 0x84);
            m.x[11] = 6;
        });
        self.run("outside, enters, budget used up inside", call(2), 2, (21, 2), |m| {
            ins(m, 2);
            m.pc = 0x48;
        });
        let twice = begin(0).put(0x48, hfi(EXIT)).put(0x4c, hfi(ENTER)).put(0x50, addi(11, 0, 6)).put(0x54, hfi(EXIT)).put(0x58, ECALL);
        self.run("outside, enters and exits twice, goes on to ECALL", twice, 50, (18, 6), |m| {
            out(m, 0, 1, 0x58);
            (m.exit_pc, m.x[11]) = (0x54, 6);
        });
        self.run("outside, enters, enters again", begin(0).put(0x48, hfi(ENTER)), 50, (23, 2), |m| {
            ins(m, 0);
            m.pc = 0x48;
        });
        self.run("outside, enters, exits, exits again", begin(0).put(0x48, hfi(EXIT)).put(0x4c, hfi(EXIT)), 50, (24, 3), |m| out(m, 0, 1, 0x4c));
    }

    fn crossings_that_stop(&mut self) {
        let begin = || outside(hfi(ENTER)).with(|m| m.x[5] = 1);
        let ins = |m: &mut Machine| {
            (m.mode, m.options, m.pc) = (1, 1, 0x44);
            m.fault.occurred = 0;
        };
        let jump = outside(hfi(ENTER_JUMP)).with(|m| (m.x[5], m.x[6]) = (5, 0xc0)).put(0xc0, hfi(EXIT));
        self.run("outside, enters with jump, exits to the handler, 12 there", jump.with(|m| m.handler = 0x2460), 50, (12, 2), |m| {
            (m.options, m.reason, m.exit_pc, m.pc) = (5, 1, 0xc0, 0x2460);
            m.fault.occurred = 0;
        })
        .told
        .address = 0x2460;
        let far = begin().with(|m| m.regions[2].base = 0x100);
        self.run("outside, enters, the next fetch is refused", far, 50, (11, 1), |m| {
            ins(m);
            m.fault = fault(0, 3, 0x44);
        });
        self.run("outside, enters, a load is refused", begin().put(0x44, load(0, 7, 0, 0)), 50, (16, 1), |m| {
            ins(m);
            m.fault = fault(0, 1, 0);
        });
        self.run("outside, enters, a locked word is forbidden", begin().put(0x44, hfi(GET_HANDLER)), 50, (25, 1), ins);
        let grants = outside(hfi_fields(SELECT, 0, 1, 0))
            .with(|m| (m.x[1], m.x[2], m.x[3], m.x[5]) = (1, 0x300, 0x10, 1))
            .put(0x44, hfi_fields(SET_BASE, 0, 2, 0))
            .put(0x48, hfi_fields(SET_BOUND, 0, 3, 0))
            .put(0x4c, hfi(ENTER))
            .put(0x50, hstore(3, 7, 8))
            .put(0x54, hload(3, 4, 9));
        self.run("outside, grants 16 bytes, enters locked, stores there, then is refused", grants, 50, (16, 5), |m| {
            ins(m);
            (m.pc, m.selector) = (0x54, 1);
            m.regions[0] = Region { base: 0x300, bound: 0x10, permission: 3 };
            m.fault = fault(1, 1, 0x310);
        })
        .stores(0x308, 8, 0x107);
        let changes = outside(store(2, 7, 0, 0x44)).with(|m| m.x[7] = EBREAK as u64).put(0x44, NOP);
        self.run("outside, stores its next word", changes, 50, (19, 1), |m| m.pc = 0x44).stores(0x44, 4, EBREAK as u64);
    }

    /// Document 02, Job 5: "4, for a step or run given such a machine in locked HFI mode ... 22, for either enter form that
    /// would begin such a state ... 4 leaves what 3 leaves, count 0, and 22 what 14 leaves."
    fn code_refused(&mut self) {
        for (name, regions) in writable_code() {
            let world = |base: World| base.with(|m| (m.regions, m.x[5], m.x[6]) = (with_others_zero(regions), 1, 0x80));
            self.step(&format!("locked, {name}"), world(locked(NOP)), 4, unchanged);
            self.run(&format!("locked, {name}"), world(locked(NOP)), 5, (4, 0), unchanged);
            self.step(&format!("enter locked, {name}"), world(outside(hfi(ENTER))), 22, unchanged);
            self.step(&format!("enter locked with jump, {name}"), world(outside(hfi(ENTER_JUMP))), 22, unchanged);
        }
    }

    /// "it says no only when such a byte address exists": regions beside code, without the permission, or broken.
    fn code_not_refused(&mut self) {
        for (name, regions, refusing) in code_apart() {
            let world = |base: World| base.with(|m| (m.regions, m.x[5]) = (with_others_zero(regions), 1));
            // The fetch at 40 passes, or is refused by that region.
            match refusing {
                None => self.step(&format!("locked, {name}"), world(locked(NOP)), 0, |m| m.pc = 0x44),
                Some(region) => self.step(&format!("locked, {name}"), world(locked(NOP)), 11, |m| m.fault = fault(region, 3, 0x40)),
            };
            self.step(&format!("enter locked, {name}"), world(outside(hfi(ENTER))), 0, |m| {
                (m.mode, m.options, m.pc, m.fault.occurred) = (1, 1, 0x44, 0);
            });
        }
    }

    /// 4 "asked after 3", before the budget and all that a step asks; not unlocked, not outside, not by resume.
    fn code_asked(&mut self) {
        let world = |base: World| base.with(|m| m.regions[1] = Region { base: 0, bound: mask(8), permission: 3 });
        for options in 0..16 {
            let (stop, pc) = if options % 2 == 1 { (4, 0x40) } else { (0, 0x44) };
            let name = format!("writable code, options {options}");
            self.step(&format!("{name}, inside"), world(inside(NOP)).with(|m| m.options = options), stop, |m| m.pc = pc);
            self.step(&format!("{name}, outside"), world(outside(NOP)).with(|m| m.options = options), 0, |m| m.pc = 0x44);
            self.resume(&name, world(inside(ECALL)).with(|m| m.options = options), 9, 0, |m| (m.pc, m.x[10]) = (0x44, 9));
        }
        for budget in [0, 1, 1_000_000] {
            self.run(&format!("writable code, budget {budget:x}"), world(locked(NOP)), budget, (4, 0), unchanged);
        }
        self.run("writable code, budget f4241", world(locked(NOP)), 1_000_001, (2, 0), unchanged);
        for (name, spoil) in broken() {
            let mut world = world(locked(NOP));
            spoil(&mut world.machine);
            self.run(&format!("writable code, {name}"), world, 0, (3, 0), unchanged);
        }
        self.run("writable code, selector 4", world(locked(NOP)).with(|m| m.selector = 4), 0, (4, 0), unchanged);
        self.run("writable code, fault region 4", world(locked(NOP)).with(|m| m.fault.region = 4), 0, (4, 0), unchanged);
        self.step("writable code, options 11", world(locked(NOP)).with(|m| m.options = 17), 3, unchanged);
        for pc in [0x41, 0x100, 0x400, 0x800, ALL - 3] {
            self.step(&format!("writable code, pc {pc:x}"), world(locked(NOP)).with(|m| m.pc = pc), 4, unchanged);
        }
        self.step("writable code, no memory", world(locked(NOP)).length(0), 4, unchanged);
        let words = [0, hfi(ENTER), hfi(RESET), 0x0020_006f, load(0, 7, 0, -1), store(3, 7, 0, 0x40), hstore(3, 7, 0), ECALL, EBREAK, hfi(EXIT)];
        for word in words {
            self.run(&format!("writable code, word {word:x}"), world(locked(word)), 5, (4, 0), unchanged);
        }
    }

    /// 22 "asked after 14 and before 15": by the operand, whatever the options are.
    fn enters_asked(&mut self) {
        let world = |base: World, value: u64, target: u64| {
            base.with(|m| (m.regions[0], m.x[5], m.x[6]) = (Region { base: 0x80, bound: 1, permission: 2 }, value, target))
        };
        for (word, form) in [(hfi(ENTER), "enter"), (hfi(ENTER_JUMP), "enter with jump")] {
            let jump = word == hfi(ENTER_JUMP);
            for value in 0..16 {
                let entered = |m: &mut Machine| (m.mode, m.options, m.pc, m.fault.occurred) = (1, value, if jump { 0x80 } else { 0x44 }, 0);
                let name = format!("{form}, writable code, operand {value}");
                if value % 2 == 1 {
                    self.step(&name, world(outside(word), value, 0x80), 22, unchanged);
                } else {
                    self.step(&name, world(outside(word), value, 0x80), 0, entered);
                }
                let stop = if value % 2 == 1 { 22 } else { 15 };
                if jump {
                    self.step(&format!("{name}, to 81"), world(outside(word), value, 0x81), stop, unchanged);
                }
            }
            for value in [17, 31, (1 << 32) + 1, ALL] {
                self.step(&format!("{form}, writable code, options operand {value:x}"), world(outside(word), value, 0x81), 14, unchanged);
            }
            for (options, stop) in [(0, 23), (14, 23), (1, 4), (15, 4)] {
                let name = format!("{form}, writable code, inside, options {options}");
                self.step(&name, world(inside(word), 1, 0x81).with(|m| m.options = options), stop, unchanged);
            }
            let lock_bit = world(outside(word), 1, 0x80).with(|m| m.options = 15);
            self.step(&format!("{form}, writable code, options 15 from before"), lock_bit, 22, unchanged);
            self.step(&format!("{form}, writable code, pc 41"), world(outside(word), 1, 0x80).with(|m| m.pc = 0x41), 10, unchanged);
            self.step(&format!("{form}, writable code, rd 1"), world(outside(word | 1 << 7), 1, 0x80), 13, unchanged);
            self.run(&format!("{form}, writable code, budget 0"), world(outside(word), 1, 0x80), 0, (21, 0), unchanged);
            self.run(&format!("{form}, writable code"), world(outside(word), 1, 0x80), 5, (22, 0), unchanged);
        }
        self.step("enter, writable code, operand of x0", world(outside(hfi_fields(ENTER, 0, 0, 0)), 1, 0), 0, |m| {
            (m.mode, m.options, m.pc, m.fault.occurred) = (1, 0, 0x44, 0);
        });
    }

    /// Runs that come to writable code, and what is left of them.
    fn code_in_runs(&mut self) {
        let whole = Region { base: 0, bound: mask(8), permission: 3 };
        // Unlocked, a guest stores its next word, by region 2 and by region 1.
        let stores = |word: u32| inside(word).with(|m| (m.options, m.x[7], m.x[9]) = (0, EBREAK as u64, 0)).put(0x44, NOP);
        let two = stores(store(2, 7, 0, 0x44)).with(|m| m.regions[1] = whole);
        self.run("unlocked, stores its next word", two.clone(), 50, (19, 1), |m| m.pc = 0x44).stores(0x44, 4, EBREAK as u64);
        self.run("locked, would store its next word", two.with(|m| m.options = 1), 50, (4, 0), unchanged);
        let one = stores(hstore(2, 7, 4)).with(|m| m.regions[0] = Region { base: 0x40, bound: 8, permission: 3 });
        self.run("unlocked, stores its next word by hsw", one.clone(), 50, (19, 1), |m| m.pc = 0x44).stores(0x44, 4, EBREAK as u64);
        self.run("locked, would store its next word by hsw", one.with(|m| m.options = 1), 50, (4, 0), unchanged);
        // Enters unlocked, stores, exits, and would enter locked.
        let begin = outside(hfi_fields(ENTER, 0, 0, 0)).with(|m| (m.regions[1], m.x[5]) = (whole, 1));
        let twice = begin.put(0x44, store(0, 7, 0, 0xff)).put(0x48, hfi(EXIT)).put(0x4c, hfi(ENTER));
        self.run("outside, enters, stores into code, exits, would enter locked", twice, 50, (22, 3), |m| {
            (m.options, m.reason, m.exit_pc, m.pc, m.fault.occurred) = (0, 1, 0x48, 0x4c, 0);
        })
        .stores(0xff, 1, 7);
        // Sets region 2 over code: base, then permission, and enters.
        let sets = |permission: u64| {
            let base = outside(hfi_fields(SET_BASE, 0, 0, 0)).put(0x44, hfi_fields(SET_PERMISSION, 0, 6, 0)).put(0x48, hfi(ENTER)).put(0x4c, ECALL);
            base.with(|m| (m.selector, m.x[5], m.x[6]) = (2, 3, permission))
        };
        let set = |permission: u64| move |m: &mut Machine| (m.regions[1].base, m.regions[1].permission, m.pc) = (0, permission, 0x48);
        self.run("outside, makes code writable, would enter locked", sets(3), 50, (22, 2), set(3));
        self.run("outside, makes code readable, enters locked, is redirected", sets(1), 50, (12, 4), |m| {
            set(1)(m);
            (m.options, m.reason, m.exit_pc, m.pc, m.fault.occurred) = (3, 2, 0x4c, 0x2460, 0);
        })
        .told
        .address = 0x2460;
        let reset = outside(hfi(RESET)).with(|m| (m.regions[1], m.x[5]) = (whole, 1)).put(0x44, hfi(ENTER));
        self.run("outside, resets regions, enters locked", reset, 50, (11, 2), |m| {
            (m.regions, m.mode, m.options, m.pc, m.fault) = (Default::default(), 1, 1, 0x48, fault(0, 3, 0x48));
        });
        // Unlocked, a guest widens region 2 over its code and goes on; 4 is for the next call.
        let widens = inside(hfi_fields(SET_BASE, 0, 0, 0)).with(|m| (m.options, m.selector) = (0, 2)).put(0x44, store(0, 7, 0, 0xff));
        self.run("unlocked, makes its code writable, stores there", widens, 2, (21, 2), |m| (m.regions[1].base, m.pc) = (0, 0x48)).stores(0xff, 1, 7);
    }

    /// Document 02, Job 6.
    fn which_rule(&mut self) {
        self.rules();
        self.rules_and_options();
        self.rules_and_operands();
        self.rules_in_order();
        self.rules_in_runs();
        self.rules_after_entering();
        self.rules_after_leaving();
    }

    /// "23, enter in HFI mode; 24, exit outside it; 25, a region or handler instruction that HFI mode
    /// forbids ... If the operand is bad as well, the new number is given." Each row wherever it can stand, with a good
    /// operand, with nothing selected, and with each bad one.
    fn rules(&mut self) {
        for (place, mode, options) in PLACES {
            for funct7 in ENTER..=RESET {
                let refused = rule(funct7, mode, options);
                for (case, x5, x6, selector, bad) in cases(funct7) {
                    let base = outside(hfi(funct7)).with(|m| (m.mode, m.options, m.x[5], m.selector) = (mode, options, x5, selector));
                    let world = if funct7 == ENTER_JUMP { base.with(|m| m.x[6] = x6) } else { base };
                    let name = format!("{} {place}, {case}", ROWS[funct7 as usize]);
                    match refused.or(bad) {
                        Some(number) => self.step(&name, world, number, unchanged),
                        None => self.step(&name, world, 0, |m| row(m, funct7)),
                    };
                }
            }
        }
    }

    /// 24 whatever the options are; the lock bit alone decides whether get handler is 25, and nothing whether set handler is.
    fn rules_and_options(&mut self) {
        for options in 0..16 {
            let world = |base: World| base.with(|m| m.options = options);
            self.step(&format!("exit outside, options {options}"), world(outside(hfi(EXIT))), 24, unchanged);
            self.step(&format!("set handler inside, options {options}"), world(inside(hfi(SET_HANDLER))), 25, unchanged);
            let name = format!("get handler inside, options {options}");
            match options {
                1 | 14 => continue, // above
                _ if options % 2 == 1 => self.step(&name, world(inside(hfi(GET_HANDLER))), 25, unchanged),
                _ => self.step(&name, world(inside(hfi(GET_HANDLER))), 0, |m| row(m, GET_HANDLER)),
            };
        }
    }

    /// Operands that would be 14, 15 or 22, in HFI mode, locked and not.
    fn rules_and_operands(&mut self) {
        for (place, options) in [("unlocked", 0), ("locked", 1)] {
            let world = |word: u32, x5: u64| inside(word).with(|m| (m.options, m.x[5]) = (options, x5));
            for value in [0, 15, 17, 1 << 32, 1 << 63, ALL] {
                self.step(&format!("enter inside, {place}, operand {value:x}"), world(hfi(ENTER), value), 23, unchanged);
            }
            for (value, target) in [(0, 0x81), (1, 0x83), (15, ALL), (ALL, 0x85)] {
                let jump = world(hfi(ENTER_JUMP), value).with(|m| m.x[6] = target);
                self.step(&format!("enter with jump inside, {place}, operand {value:x}, to {target:x}"), jump, 23, unchanged);
            }
            let number = if options == 1 { 25 } else { 14 };
            if options == 1 {
                for value in [4, 5, 10] {
                    self.step(&format!("select {value:x} inside, {place}"), world(hfi(SELECT), value), 25, unchanged);
                }
            }
            for value in [0, 11, 12, (1 << 32) + 1, 1 << 63, ALL] {
                self.step(&format!("select {value:x} inside, {place}"), world(hfi(SELECT), value), number, unchanged);
            }
            for (selector, value) in [(1, 4), (1, 1 << 63), (2, 4), (2, 0xb), (3, 1), (3, 1 << 32)] {
                let lacks = world(hfi(SET_PERMISSION), value).with(|m| m.selector = selector);
                self.step(&format!("set permission {value:x} inside, {place}, region {selector} lacks it"), lacks, number, unchanged);
            }
            for funct7 in [GET_BASE, GET_BOUND, GET_PERMISSION] {
                let name = format!("{} into x0 inside, {place}, nothing selected", ROWS[funct7 as usize]);
                self.step(&name, world(hfi_fields(funct7, 0, 0, 0), 1), number, unchanged);
            }
        }
        let into_x0 = |base: World| base.with(|m| m.selector = 1);
        self.step("get base into x0 inside, locked", into_x0(locked(hfi_fields(GET_BASE, 0, 0, 0))), 25, unchanged);
        self.step("get handler into x0 inside, locked", locked(hfi_fields(GET_HANDLER, 0, 0, 0)), 25, unchanged);
        self.step("set handler from x0 inside, unlocked", inside(hfi_fields(SET_HANDLER, 0, 0, 0)), 25, unchanged);
        self.step("select x0 inside, locked", locked(hfi_fields(SELECT, 0, 0, 0)), 25, unchanged);
    }

    /// "all three are asked just before 14": after all that stands before 14, and after the budget.
    fn rules_in_order(&mut self) {
        let broken = [
            ("enter inside", 23, inside(hfi(ENTER))),
            ("enter with jump inside", 23, inside(hfi(ENTER_JUMP))),
            ("exit outside", 24, outside(hfi(EXIT))),
            ("set handler inside", 25, inside(hfi(SET_HANDLER))),
            ("get base locked", 25, locked(hfi(GET_BASE))),
            ("reset locked", 25, locked(hfi(RESET))),
        ];
        for (name, number, world) in broken {
            self.run(&format!("{name}, budget 0"), world.clone(), 0, (21, 0), unchanged);
            self.run(&format!("{name}, budget 1"), world.clone(), 1, (number, 0), unchanged);
            self.run(&format!("{name}, budget f4241"), world.clone(), 1_000_001, (2, 0), unchanged);
            self.step(&format!("{name}, not well formed"), world.clone().with(|m| m.fault.op = 4), 3, unchanged);
            self.step(&format!("{name}, pc 41"), world.clone().with(|m| m.pc = 0x41), 10, unchanged);
            let short = world.clone().length(0x43);
            self.add(&format!("step: {name}, memory ends at 43"), Request::Step, short, (12, 0, 0x43), unchanged);
            if number != 24 {
                let barred = world.clone().with(|m| m.regions[2].permission = 0);
                self.step(&format!("{name}, region 3 without execute"), barred, 11, |m| m.fault = fault(3, 3, 0x40));
            }
            if world.machine.options == 1 {
                let exposed = world.clone().with(|m| m.regions[1].base = 0);
                self.step(&format!("{name}, writable code"), exposed, 4, unchanged);
            }
            // A field that no row names.
            let word = u32::from_le_bytes(world.bytes[0x40..0x44].try_into().unwrap());
            let spare = if word >> 25 == GET_BASE { word | 1 << 15 } else { word | 1 << 7 };
            self.step(&format!("{name}, a field not named"), world.put(0x40, spare), 13, unchanged);
        }
    }

    /// The same within a run, after two steps: they count, and the machine is what they left.
    fn rules_in_runs(&mut self) {
        for (place, mode, options) in PLACES {
            for funct7 in ENTER..=RESET {
                let Some(number) = rule(funct7, mode, options) else { continue };
                let base = outside(addi(10, 10, 1)).put(0x44, store(0, 10, 0, 0x400)).put(0x48, hfi(funct7));
                let world = base.with(|m| (m.mode, m.options, m.x[5], m.x[6], m.selector) = (mode, options, 1, 0x80, 1));
                let name = format!("two steps, then {} {place}", ROWS[funct7 as usize]);
                self.run(&name, world, 50, (number, 2), |m| (m.x[10], m.pc) = (0x10b, 0x48)).stores(0x400, 1, 0x0b);
            }
        }
    }

    /// Runs in which an enter or a select before has made the rule apply.
    fn rules_after_entering(&mut self) {
        let entered = |m: &mut Machine, options: u64, pc: u64| {
            (m.mode, m.options, m.pc) = (1, options, pc);
            m.fault.occurred = 0;
        };
        self.run("outside, enters, enters again with operand 10", enters(1).put(0x44, hfi(ENTER)), 50, (23, 1), |m| entered(m, 1, 0x44));
        for funct7 in SELECT..=RESET {
            let world = enters(0).put(0x44, hfi(funct7));
            let name = format!("outside, enters, {}", ROWS[funct7 as usize]);
            // Operand 10 is no region; nothing is selected.
            match funct7 {
                SET_HANDLER => self.run(&name, world, 50, (25, 1), |m| entered(m, 0, 0x44)),
                SELECT..=GET_PERMISSION => self.run(&name, world, 50, (14, 1), |m| entered(m, 0, 0x44)),
                _ => continue,
            };
            let world = enters(1).put(0x44, hfi(funct7));
            self.run(&format!("{name}, locked"), world, 50, (25, 1), |m| entered(m, 1, 0x44));
        }
        let unlocked = inside(hfi_fields(SELECT, 0, 1, 0)).with(|m| (m.x[1], m.options) = (2, 0));
        let selects = unlocked.put(0x44, hfi(GET_BASE)).put(0x48, hfi(GET_HANDLER)).put(0x4c, hfi(SET_HANDLER));
        self.run("unlocked, selects, gets base and handler, would set the handler", selects, 50, (25, 3), |m| {
            (m.selector, m.x[7], m.pc) = (2, 0x2460, 0x4c);
        });
    }

    /// Out by an exit, redirected or not, or by a call: then 24, and h-words keep 14.
    fn rules_after_leaving(&mut self) {
        let left = |m: &mut Machine, options: u64, reason: u64, pc: u64| {
            (m.options, m.reason, m.exit_pc, m.pc) = (options, reason, 0x44, pc);
            m.fault.occurred = 0;
        };
        let exits = |options: u64, word: u32| enters(options).put(0x44, hfi(EXIT)).put(0x48, word).put(0x80, word);
        let calls = enters(2).put(0x44, ECALL).put(0x80, hfi(EXIT));
        self.run("outside, enters, exits to the handler, exits again", exits(4, hfi(EXIT)), 50, (24, 2), |m| left(m, 4, 1, 0x80));
        self.run("outside, enters locked, exits, exits again", exits(1, hfi(EXIT)), 50, (24, 2), |m| left(m, 1, 1, 0x48));
        self.run("outside, enters, is redirected, exits", calls, 50, (24, 2), |m| left(m, 2, 2, 0x80));
        self.run("outside, enters, exits, h-load", exits(1, hload(3, 7, 8)), 50, (14, 2), |m| left(m, 1, 1, 0x48));
        self.run("outside, enters, exits to the handler, h-store", exits(5, hstore(3, 7, 8)), 50, (14, 2), |m| left(m, 5, 1, 0x80));
        self.run("outside, enters locked, exits, sets the handler", exits(1, hfi(SET_HANDLER)), 3, (21, 3), |m| {
            left(m, 1, 1, 0x4c);
            m.handler = 0x10;
        });
    }

    /// "a run that began in HFI mode ends there with 20"
    fn runs_inside(&mut self) {
        let exit = || inside(addi(10, 0, 5)).with(|m| m.options = 0).put(0x44, hfi(EXIT)).put(0x48, ECALL);
        let left = |m: &mut Machine| (m.mode, m.reason, m.exit_pc, m.pc, m.x[10]) = (0, 1, 0x44, 0x48, 5);
        self.run("inside, exits: 20, not ECALL's 18", exit(), 50, (20, 2), left);
        self.run("inside, exits with the last step: 20, not 21", exit(), 2, (20, 2), left);
        self.run("inside, budget used up before the exit", exit(), 1, (21, 1), |m| (m.pc, m.x[10]) = (0x44, 5));
    }
}

/// The rows of opcode 5b by funct7.
const ROWS: [&str; 13] = [
    "enter",
    "enter with jump",
    "exit",
    "select",
    "set base",
    "get base",
    "set bound",
    "get bound",
    "set permission",
    "get permission",
    "set handler",
    "get handler",
    "reset",
];

/// Where a word can stand: name, mode and options.
const PLACES: [(&str, u64, u64); 4] = [("outside", 0, 14), ("outside, lock bit set", 0, 1), ("inside, unlocked", 1, 14), ("inside, locked", 1, 1)];

/// Job 6's rule that a row breaks in a mode with these options, whatever its operand.
fn rule(funct7: u32, mode: u64, options: u64) -> Option<u64> {
    let locked = options % 2 == 1;
    match funct7 {
        ENTER | ENTER_JUMP if mode == 1 => Some(23),
        EXIT if mode == 0 => Some(24),
        SET_HANDLER if mode == 1 => Some(25),
        SELECT..=GET_PERMISSION | GET_HANDLER | RESET if mode == 1 && locked => Some(25),
        _ => None,
    }
}

/// The operands that a row is tried with: name, x5, x6, selector, and what it gets where no rule of Job 6 is broken.
fn cases(funct7: u32) -> Vec<(&'static str, u64, u64, u64, Option<u64>)> {
    let good = ("good operand", 1, 0x80, 2, None);
    let unselected = |number: Option<u64>| ("nothing selected", 1, 0x80, 0, number);
    match funct7 {
        ENTER => vec![good, unselected(None), ("operand 10", 16, 0x80, 2, Some(14))],
        ENTER_JUMP => vec![
            good,
            unselected(None),
            ("operand 10", 16, 0x80, 2, Some(14)),
            ("to 81", 1, 0x81, 2, Some(15)),
            ("operand 10, to 81", 16, 0x81, 2, Some(14)),
        ],
        SELECT => vec![good, unselected(None), ("number 0", 0, 0x80, 2, Some(14)), ("number 4", 4, 0x80, 0, None), ("number b", 11, 0x80, 0, Some(14))],
        SET_PERMISSION => vec![good, unselected(Some(14)), ("bit 2, which region 2 lacks", 4, 0x80, 2, Some(14))],
        SET_BASE..=GET_PERMISSION => vec![good, unselected(Some(14))],
        EXIT => vec![good], // others select nothing
        _ => vec![good, unselected(None)],
    }
}

/// Outside, about to enter with these options from x1; x5 is 10, and the handler is at 80.
fn enters(options: u64) -> World {
    outside(hfi_fields(ENTER, 0, 1, 0)).with(|m| (m.x[1], m.x[5], m.handler) = (options, 16, 0x80))
}

/// What a row that HFI allows does, with x5 and x6 as operands and x7 as rd; exits are redirected by option bit 2.
fn row(m: &mut Machine, funct7: u32) {
    match funct7 {
        ENTER | ENTER_JUMP => {
            (m.mode, m.options, m.pc) = (1, m.x[5], if funct7 == ENTER { 0x44 } else { m.x[6] });
            m.fault.occurred = 0;
        }
        EXIT => {
            let next = if m.options & 4 == 4 { m.handler } else { 0x44 };
            (m.mode, m.reason, m.exit_pc, m.pc) = (0, 1, 0x40, next);
        }
        _ => region_word(m, funct7),
    }
}

/// What a word of funct7 3 to 12 that HFI allows does, with x5 as operand and x7 as rd.
fn region_word(m: &mut Machine, funct7: u32) {
    let (operand, chosen) = (m.x[5], (m.selector as usize).max(1) - 1);
    match funct7 {
        SELECT => m.selector = operand,
        SET_BASE => m.regions[chosen].base = operand,
        GET_BASE => m.x[7] = m.regions[chosen].base,
        SET_BOUND => m.regions[chosen].bound = operand,
        GET_BOUND => m.x[7] = m.regions[chosen].bound,
        SET_PERMISSION => m.regions[chosen].permission = operand,
        GET_PERMISSION => m.x[7] = m.regions[chosen].permission,
        SET_HANDLER => m.handler = operand & 0x3fff_ffff_ffff_fffc,
        GET_HANDLER => m.x[7] = m.handler,
        _ => (m.regions, m.selector) = (Default::default(), 0),
    }
    m.pc = 0x44;
}

fn fault(region: u64, op: u64, address: u64) -> crate::Fault {
    crate::Fault { occurred: 1, region, op, address }
}

/// Regions 1, 2 and 3 with a byte that is both writable and executable. Memory ends at 800.
fn writable_code() -> Vec<(&'static str, [Region; 3])> {
    const TOP: u64 = 1 << 48;
    let (none, code) = (Region::default(), region(0, mask(8), 4));
    let one = |base: u64, bound: u64, permission: u64| [region(base, bound, permission), none, code];
    let two = |base: u64, k: u32, permission: u64| [none, region(base, mask(k), permission), code];
    vec![
        ("region 1 is code", one(0, 0x100, 3)),
        ("region 1 is code, write only", one(0, 0x100, 2)),
        ("region 1 has code's first byte", one(0, 1, 3)),
        ("region 1 has code's last byte", one(0xff, 1, 3)),
        ("region 1 begins with code's last byte", one(0xff, 0x100, 3)),
        ("region 1 ends with code's first byte", [region(0xc1, 0x40, 3), none, region(0x100, mask(8), 4)]),
        ("region 1 inside code", one(0x41, 2, 3)),
        ("region 1 of 2^32 bytes", one(0, 1 << 32, 3)),
        ("large region 1", one(0, 0x10000, 0xb)),
        ("large region 1 of 2^48 bytes, write only", one(0, TOP, 0xa)),
        ("large region 1 over 2^32, code there", [region(0xffff_0000, 0x20000, 0xb), none, region(1 << 32, mask(16), 4)]),
        ("region 2 is code", two(0, 8, 3)),
        ("region 2 is code, write only", two(0, 8, 2)),
        ("region 2 is code's first byte", two(0, 0, 3)),
        ("region 2 is code's last byte", two(0xff, 0, 3)),
        ("region 2 inside code", two(0x80, 4, 3)),
        ("region 2 around code", two(0, 9, 3)),
        ("region 2 of 2^48 bytes", two(0, 48, 3)),
        ("both regions in code", [region(0x40, 4, 3), region(0x40, mask(2), 3), code]),
        ("region 2 in code, region 1 apart", [region(0x200, 0x40, 3), region(0x40, mask(2), 3), code]),
        ("region 1 in code, region 2 apart", [region(0x40, 4, 3), region(0x400, mask(8), 3), code]),
        ("region 1 in code past memory", [region(0x800, 1, 3), none, region(0, mask(12), 4)]),
        ("region 2 in code past memory", [none, region(0x10000, mask(16), 3), region(0, mask(17), 4)]),
        ("region 1 is the last byte below 2^48", [region(TOP - 1, 1, 3), none, region(0, mask(48), 4)]),
        ("region 2 is the last byte below 2^48", [none, region(TOP - 1, mask(0), 2), region(TOP - 0x100, mask(8), 4)]),
        ("region 1 in code of two bytes", [region(0x41, 1, 3), none, region(0x40, mask(1), 4)]),
        ("region 2 is code of one byte", [none, region(0x40, mask(0), 3), region(0x40, mask(0), 4)]),
    ]
}

/// The same without such a byte, and the fault region if a fetch at 40 is refused.
fn code_apart() -> Vec<(&'static str, [Region; 3], Option<u64>)> {
    let runs = [code_beside(), code_in_broken_regions()].concat();
    let whole = [region(0, 0x10000, 0xb), region(0, mask(12), 3)];
    let stops = [
        ("writable bytes, region 3 without execute", region(0, mask(8), 0), 3),
        ("writable bytes, region 3 unset", Region::default(), 0),
        ("writable bytes, region 3 with base 48", region(0x48, mask(4), 4), 0),
        ("writable bytes, region 3 of 2^49 bytes", region(0, mask(49), 4), 0),
        ("writable bytes, a hole in region 3's mask", region(0, mask(8) ^ 1 << 40, 4), 0),
    ];
    let runs = runs.into_iter().map(|(name, regions)| (name, regions, None));
    let stops = stops.into_iter().map(|(name, code, refusing)| (name, [whole[0], whole[1], code], Some(refusing)));
    runs.chain(stops).collect()
}

fn code_beside() -> Vec<(&'static str, [Region; 3])> {
    const TOP: u64 = 1 << 48;
    let (none, code, upper) = (Region::default(), region(0, mask(8), 4), region(0x40, mask(6), 4));
    let one = |base: u64, bound: u64, permission: u64| [region(base, bound, permission), none, code];
    let two = |base: u64, mask: u64, permission: u64| [none, region(base, mask, permission), code];
    vec![
        ("region 1 begins where code ends", one(0x100, 0x40, 3)),
        ("region 1 from there to 2^32", one(0x100, (1 << 32) - 0x100, 3)),
        ("region 1 ends where code begins", [region(0, 0x40, 3), none, upper]),
        ("large region 1 begins where code ends", [region(0x10000, TOP - 0x10000, 0xb), none, region(0, mask(16), 4)]),
        ("region 2 begins where code ends", two(0x100, mask(8), 3)),
        ("region 2 ends where code begins", [none, region(0, mask(6), 3), upper]),
        ("regions 1 and 2 are one, beside code", [region(0x400, 0x100, 3), region(0x400, mask(8), 3), code]),
        ("region 1 is code, without write", one(0, 0x100, 1)),
        ("large region 1 has code, without write", one(0, 0x10000, 9)),
        ("large region 1 has code, without any", one(0, 0x10000, 8)),
        ("region 2 is code, without write", two(0, mask(8), 1)),
        ("region 2 is code, without any", two(0, mask(8), 0)),
    ]
}

fn code_in_broken_regions() -> Vec<(&'static str, [Region; 3])> {
    const TOP: u64 = 1 << 48;
    let (none, code, most) = (Region::default(), region(0, mask(8), 4), region(0, mask(48), 4));
    let one = |base: u64, bound: u64, permission: u64| [region(base, bound, permission), none, code];
    let two = |base: u64, mask: u64, permission: u64| [none, region(base, mask, permission), code];
    vec![
        ("region 1 in code, bound 0", one(0x40, 0, 3)),
        ("region 1 in code, bound 2^32 and 1", one(0, (1 << 32) + 1, 3)),
        ("region 1 in code, over 2^32", one(0x40, (1 << 32) - 0x3f, 3)),
        ("region 1 in code, bound of ones", one(0, ALL, 3)),
        ("region 1 in code, to 2^64", one(0x40, ALL - 0x3f, 3)),
        ("region 1 over 2^64 to code", one(ALL - 0xf, 0x60, 3)),
        ("large region 1 in code, bound 0", one(0, 0, 0xb)),
        ("large region 1 in code, bound 10001", one(0, 0x10001, 0xb)),
        ("large region 1 in code, base 40", one(0x40, 0x10000, 0xb)),
        ("large region 1 in code, past 2^48", [region(0x10000, TOP, 0xb), none, region(0, mask(17), 4)]),
        ("region 1 in code, past 2^48", [region(TOP - 1, 2, 3), none, most]),
        ("region 1 at 2^48", [region(TOP, 1, 3), none, most]),
        ("region 2 at 2^48", [none, region(TOP, mask(8), 3), most]),
        ("region 2 in code, base 48", two(0x48, mask(4), 3)),
        ("region 2 in code, mask 0", two(0, 0, 3)),
        ("region 2 in code, 2^49 bytes", two(0, mask(49), 3)),
        ("region 2 in code, a hole in its mask", two(0, mask(8) ^ 1 << 40, 3)),
        ("region 2 in code, no top bit in its mask", two(0, mask(8) >> 1 & mask(8), 3)),
    ]
}

fn region(base: u64, bound: u64, permission: u64) -> Region {
    Region { base, bound, permission }
}

type Change = (String, Box<dyn Fn(&mut Machine)>);

fn change(name: &str, set: impl Fn(&mut Machine) + 'static) -> Change {
    (name.to_string(), Box::new(set))
}

/// One clause of well formed broken each.
fn broken() -> Vec<Change> {
    let mut all = Vec::new();
    for value in [1, 1 << 63] {
        all.push(change(&format!("x0 {value:x}"), move |m| m.x[0] = value));
    }
    for value in [2, 1 << 32, ALL] {
        all.push(change(&format!("mode {value:x}"), move |m| m.mode = value));
    }
    for value in [3, 1 << 32] {
        all.push(change(&format!("reason {value:x}"), move |m| m.reason = value));
    }
    for value in [16, 1 << 32] {
        all.push(change(&format!("options {value:x}"), move |m| m.options = value));
    }
    for place in [0, 1, 62, 63] {
        all.push(change(&format!("handler bit {place}"), move |m| m.handler |= 1 << place));
    }
    for value in [11, 1 << 32] {
        all.push(change(&format!("selector {value:x}"), move |m| m.selector = value));
    }
    for (number, places) in [(1, [2, 4, 63].as_slice()), (2, &[2, 3, 63]), (3, &[0, 1, 3, 63])] {
        for place in places.iter().copied() {
            all.push(change(&format!("region {number} permission bit {place}"), move |m| m.regions[number - 1].permission |= 1 << place));
        }
    }
    for value in [2, 1 << 32] {
        all.push(change(&format!("occurred {value:x}"), move |m| m.fault.occurred = value));
    }
    for value in [11, 1 << 32] {
        all.push(change(&format!("fault region {value:x}"), move |m| m.fault.region = value));
    }
    for value in [4, 1 << 32] {
        all.push(change(&format!("fault op {value:x}"), move |m| m.fault.op = value));
    }
    all
}

/// Each field at its largest good value, then all of them.
fn largest() -> Vec<Change> {
    let mut all = vec![
        change("mode 1", |m| m.mode = 1),
        change("reason 2", |m| m.reason = 2),
        change("exit pc of ones", |m| m.exit_pc = ALL),
        change("options f", |m| m.options = 15),
        change("handler 3ffffffffffffffc", |m| m.handler = 0x3fff_ffff_ffff_fffc),
        change("selector 3", |m| m.selector = 3),
        change("selector 4", |m| m.selector = 4),
        change("selector a", |m| m.selector = 10),
        change("region 1 permission b", |m| m.regions[0].permission = 0xb),
        change("region 2 permission 3", |m| m.regions[1].permission = 3),
        change("region 3 permission 4", |m| m.regions[2].permission = 4),
        change("base and bound of ones", |m| (m.regions[0].base, m.regions[0].bound) = (ALL, ALL)),
        change("fault region 3", |m| m.fault.region = 3),
        change("fault region 4", |m| m.fault.region = 4),
        change("fault region a", |m| m.fault.region = 10),
        change("fault op 3", |m| m.fault.op = 3),
        change("fault address of ones", |m| m.fault.address = ALL),
        change("x1 to x31 of ones", |m| (1..32).for_each(|n| m.x[n] = ALL)),
    ];
    let each = largest_of_all;
    all.push(change("every field at its largest", each));
    all.push(change("every field of ten regions at its largest", largest_of_ten));
    all
}

fn largest_of_all(m: &mut Machine) {
    (m.mode, m.reason, m.exit_pc, m.options, m.handler, m.selector) = (1, 2, ALL, 15, 0x3fff_ffff_ffff_fffc, 3);
    m.regions[0] = Region { base: ALL, bound: ALL, permission: 0xb };
    m.regions[1] = Region { base: ALL, bound: ALL, permission: 3 };
    m.fault = crate::Fault { occurred: 1, region: 3, op: 3, address: ALL };
    (1..32).for_each(|n| m.x[n] = ALL);
}

fn largest_of_ten(m: &mut Machine) {
    largest_of_all(m);
    (m.selector, m.fault.region) = (10, 10);
    for n in 4..=10 {
        m.regions[n - 1] = Region { base: ALL, bound: ALL, permission: ten::largest_permission(n) };
    }
}

pub fn directed() -> Vec<Directed> {
    let mut list = List::default();
    list.asked();
    list.enters();
    list.enters_refused();
    list.exits();
    list.h_words_outside();
    list.locks();
    list.regions();
    list.permissions();
    list.handler_and_reset();
    list.system();
    list.crossings();
    list.crossings_that_stop();
    list.runs_inside();
    list.resumes();
    list.ill_formed();
    list.well_formed();
    list.absent_words();
    list.absent_data();
    list.refused();
    list.not_consulted();
    list.offsets_refused();
    list.offsets_granted();
    list.offset_registers();
    list.offsets_absent();
    list.offsets_of_broken_regions();
    list.offsets_in_runs();
    list.m_values();
    list.m_registers();
    list.m_asked();
    list.m_neighbours();
    list.m_runs();
    list.code_refused();
    list.code_not_refused();
    list.code_asked();
    list.enters_asked();
    list.code_in_runs();
    list.which_rule();
    list.ten_regions();
    list.half_words();
    list.lengths();
    // A call that two subjects share stands once, under the first.
    let mut seen = std::collections::HashSet::new();
    list.all.retain(|row| seen.insert(row.call.unnamed()));
    list.all
}

/// Random calls: those of the base, then those with RV64M words, then those of
/// Job 5, then those of Job 6, then those of Job 7, then those of Job 8. Of the
/// first two some are refused by Job 5.
pub fn random() -> Vec<Call> {
    let (mut base, mut rv64m, mut code) = (Supply::of_base(20), Supply::of_rv64m(21), Supply::of_writable_code(22));
    let (mut rules, mut ten, mut supply) = (Supply::of_rules(23), Supply::of_ten(24), Supply::new(25));
    let first = (0..RANDOM).map(|n| random_call(&mut base, n));
    let second = (0..RANDOM_M).map(|n| random_m_call(&mut rv64m, n));
    let third = (0..RANDOM_CODE).map(|n| random_code_call(&mut code, n));
    let fourth = (0..RANDOM_RULES).map(|n| random_rule_call(&mut rules, n));
    let fifth = (0..RANDOM_TEN).map(|n| random_ten_call(&mut ten, n));
    let sixth = (0..RANDOM_HALF).map(|n| random_half_call(&mut supply, n));
    let all = first.chain(second).chain(third).chain(fourth).chain(fifth).chain(sixth).enumerate();
    all.map(|(n, (request, machine, lent))| random_named(n, request, machine, &lent)).collect()
}

/// Runs that cross the mode, steps of one word, short runs and resumptions of
/// any machine.
fn random_call(supply: &mut Supply, n: usize) -> (Request, Machine, Vec<u8>) {
    match n % 8 {
        0 | 1 => {
            let (machine, memory) = supply.crossing_world(7);
            (Request::Run(supply.below(60)), machine, memory)
        }
        2 => {
            let machine = supply.any_state();
            (Request::Resume(supply.edge()), machine, Vec::new())
        }
        3 => {
            let length = supply.below(160) as usize;
            let machine = supply.machine(length);
            (Request::Run(supply.budget()), machine, supply.memory(length))
        }
        _ => {
            let (machine, memory) = supply.single_step(256);
            (Request::Step, machine, memory)
        }
    }
}

/// Steps of one RV64M word with aimed operands, runs of RV64M words alone, and
/// runs that cross the mode with some among others.
fn random_m_call(supply: &mut Supply, n: usize) -> (Request, Machine, Vec<u8>) {
    match n % 4 {
        0 | 1 => {
            let (mut memory, turn) = (vec![0; 64], n / 4 * 2 + n % 4);
            let machine = supply.aimed_m_word(PAIRS[turn % PAIRS.len()], turn % M_WORDS, turn, &mut memory);
            (Request::Step, machine, memory)
        }
        2 => {
            let mut machine = supply.well_formed_machine(128);
            (machine.mode, machine.pc) = (supply.below(2), 0);
            machine.regions[2] = Region { base: 0, bound: mask(7), permission: 4 };
            let words = (0..31).map(|_| {
                let (rd, rs1, rs2) = (supply.below(8), supply.below(16), supply.below(8));
                encode(&Instruction::Register { kind: m_kind(supply.below(M_WORDS as u64) as usize), rd, rs1, rs2 }).expect("in range")
            });
            let memory = words.chain([ECALL]).flat_map(|word| word.to_le_bytes()).collect();
            (Request::Run(supply.below(40)), machine, memory)
        }
        _ => {
            let (machine, memory) = supply.crossing_world(7);
            (Request::Run(supply.below(60)), machine, memory)
        }
    }
}

/// Regions aimed at code, in each of the ways, and runs that cross the mode.
fn random_code_call(supply: &mut Supply, n: usize) -> (Request, Machine, Vec<u8>) {
    if n % 4 == 3 {
        let (machine, memory) = supply.crossing_world(7);
        return (Request::Run(supply.below(60)), machine, memory);
    }
    let all = aims();
    let call = aimed_call(supply, all[n * 7 % all.len()], n % WAYS.len());
    (call.request, call.machine, call.bytes)
}

/// Words of question 8 that get each of its numbers in turn, or none, as steps
/// and within runs. Registers that the words do not name are 0, for want of room.
fn random_rule_call(supply: &mut Supply, n: usize) -> (Request, Machine, Vec<u8>) {
    let mut all = hfi_rules::aims();
    all.retain(|aim| aim.told() == [23, 24, 25, 14, 0][n % 5]);
    let [step, run] = hfi_rules::aimed_calls(supply, all[n / 5 * 5 % all.len()]);
    let at = step.machine.pc as usize;
    let word = u32::from_le_bytes(step.bytes[at..at + 4].try_into().unwrap());
    let named = [word >> 7, word >> 15, word >> 20, 30].map(|field| field as usize % 32);
    let mut call = if n % 2 == 0 { step } else { run };
    (0..32).filter(|register| !named.contains(register)).for_each(|register| call.machine.x[register] = 0);
    (call.request, call.machine, call.bytes)
}

/// Accesses over two regions of a kind and h-words through each region, regions
/// that hide others where Job 5 asks, and runs that cross the mode with ten.
fn random_ten_call(supply: &mut Supply, n: usize) -> (Request, Machine, Vec<u8>) {
    match n % 6 {
        0 => {
            let (machine, memory) = supply.crossing_world(7);
            (Request::Run(supply.below(60)), machine, memory)
        }
        1 | 2 => {
            let all = [aims(), hiding_aims()].concat();
            let call = aimed_call(supply, all[n * 11 % all.len()], n % 7);
            (call.request, call.machine, call.bytes)
        }
        _ => {
            let all = ten_regions::aims();
            let call = supply.aimed_at_ten(all[n * 37 % all.len()]).call;
            let request = if n % 2 == 0 { Request::Step } else { Request::Run(1) };
            let bytes = about_the_access(&call);
            (request, call.machine, bytes)
        }
    }
}

/// Aimed fetches, steps of half-words and of long words at 2 past a multiple of
/// 4, and runs of both that cross the mode.
fn random_half_call(supply: &mut Supply, n: usize) -> (Request, Machine, Vec<u8>) {
    match n % 6 {
        0 => {
            let (machine, memory) = supply.crossing_world(7);
            (Request::Run(supply.below(60)), machine, memory)
        }
        1 | 2 => {
            let all = fetches::aims();
            let (machine, memory) = supply.aimed_fetch(all[n * 137 % all.len()]);
            let (at, mut bytes) = (machine.pc as usize, vec![0; memory.len()]);
            let end = (at + 4).min(memory.len());
            bytes[at.min(end)..end].copy_from_slice(&memory[at.min(end)..end]);
            (if n % 2 == 0 { Request::Step } else { Request::Run(1) }, machine, bytes)
        }
        _ => {
            let (machine, memory) = supply.single_step(256);
            (Request::Step, machine, memory)
        }
    }
}

/// The bytes of a call at its word and about its access; the others 0, for want
/// of room.
fn about_the_access(call: &Call) -> Vec<u8> {
    let at = call.machine.pc as usize;
    let word = u32::from_le_bytes(call.bytes[at..at + 4].try_into().unwrap());
    let mut kept = vec![at..at + 4];
    if let Some(access) = decode(word).and_then(|word| data_access(&call.machine, &word)) {
        let address = address(&call.machine, &access, 0) as usize;
        kept.push(address - 4..address + 12);
    }
    let mut bytes = vec![0; call.bytes.len()];
    kept.into_iter().for_each(|part| bytes[part.clone()].copy_from_slice(&call.bytes[part]));
    bytes
}

fn random_named(n: usize, request: Request, machine: Machine, lent: &[u8]) -> Call {
    let length = lent.len();
    let mut bytes = vec![0; ROOM];
    bytes[..length].copy_from_slice(lent);
    // A byte past the end, which no call may touch.
    bytes[length] = 0xee;
    Call { name: format!("random {n}"), request, machine, length, bytes }
}

/// The two files of stored calls: the first ends with the call that comes to
/// half of the bytes.
pub fn halves(data: &str) -> (String, String) {
    let lines: Vec<&str> = data.split_inclusive('\n').collect();
    let (mut first, mut second) = (String::new(), String::new());
    for call in lines.chunks(5) {
        let part = if first.len() < data.len() / 2 { &mut first } else { &mut second };
        part.push_str(&call.concat());
    }
    (first, second)
}

/// The stored calls, and what the oracle answers to them.
pub fn stored() -> (String, String) {
    let (mut data, mut printed) = (String::new(), String::new());
    let mut both = |call: &Call, told: Option<&Answer>| {
        let answer = call.answer(&crate::compare::Oracle).expect("the oracle answers");
        assert!(told.map_or(true, |told| *told == answer), "{}: as written {}oracle {}", call.name, told.unwrap().written(""), answer.written(""));
        data.push_str(&call.written());
        printed.push_str(&answer.written(&call.name));
    };
    for row in directed() {
        both(&row.call, Some(&row.told));
    }
    for call in random() {
        both(&call, None);
    }
    (data, printed)
}

/// How many of the stored calls are random: of the base, with RV64M words, of Job 5, of Job 6, of Job 7, of Job 8.
const RANDOM: usize = 160;
const RANDOM_M: usize = 80;
const RANDOM_CODE: usize = 80;
const RANDOM_RULES: usize = 40;
const RANDOM_TEN: usize = 60;
const RANDOM_HALF: usize = 60;

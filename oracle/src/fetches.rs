//! Document 02, Job 8, aimed: fetches whose bytes are refused or absent from each
//! byte on, jumps and enters to each place past a multiple of 4, and every
//! half-word as a step, each with what must be answered.

use std::collections::BTreeMap;

use crate::compare::{compare_run, compare_step, Counts, Engine};
use crate::half_words::{begins_long_word, expand, row, shortened, ROWS};
use crate::instruction::{decode, encode, BranchKind, HfiKind, ImmediateKind, Instruction};
use crate::machine::{Machine, Region};
use crate::supply::Supply;

const ALL: u64 = u64::MAX;
const LENGTH: usize = 256;

/// What stands at pc.
#[derive(Clone, Copy, Debug, PartialEq, Eq, PartialOrd, Ord)]
pub enum Word {
    Half,
    ReservedHalf,
    Long,
    IllegalLong,
}

/// Why the code regions refuse a byte: none has it, 3 has it without permission
/// before 10 would grant it, or 10 has it without permission where 3 does not.
#[derive(Clone, Copy, Debug, PartialEq, Eq, PartialOrd, Ord)]
pub enum Bar {
    NoMatch,
    Hidden,
    Lacking,
}

/// A fetch: bytes from `refused` and from `absent` on, counted from pc; 4 for none.
#[derive(Clone, Copy, Debug, PartialEq, Eq, PartialOrd, Ord)]
pub struct Aim {
    pub word: Word,
    pub bar: Bar,
    pub inside: bool,
    pub refused: u64,
    pub absent: u64,
    /// pc past a multiple of 4: 0 to 3.
    pub past: u64,
}

pub const WORDS: [Word; 4] = [Word::Half, Word::ReservedHalf, Word::Long, Word::IllegalLong];
pub const BARS: [Bar; 3] = [Bar::NoMatch, Bar::Hidden, Bar::Lacking];

/// How many aimed fetches and jumps of each kind were met.
pub type Met = BTreeMap<String, u64>;

pub fn aims() -> Vec<Aim> {
    let mut all = Vec::new();
    for (word, bar) in WORDS.into_iter().flat_map(|word| BARS.map(|bar| (word, bar))) {
        for (refused, absent) in (0..25).map(|n| (n / 5, n % 5)) {
            for (past, inside) in (0..8).map(|n| (n / 2, n % 2 == 1)) {
                all.push(Aim { word, bar, inside, refused, absent, past });
            }
        }
    }
    all
}

impl Aim {
    fn length(self) -> u64 {
        match self.word {
            Word::Half | Word::ReservedHalf => 2,
            Word::Long | Word::IllegalLong => 4,
        }
    }

    /// The stop and the byte, counted from pc, that is recorded or given: 11 and
    /// 12 of the first two bytes, then of the other two.
    pub fn told(self) -> (u64, Option<u64>) {
        if self.past % 2 == 1 {
            return (10, None);
        }
        for half in (0..self.length()).step_by(2) {
            let (first, last) = (half, half + 1);
            if self.inside && self.refused <= last {
                return (11, Some(self.refused.max(first)));
            }
            if self.absent <= last {
                return (12, Some(self.absent.max(first)));
            }
        }
        match self.word {
            Word::ReservedHalf | Word::IllegalLong => (13, None),
            Word::Half | Word::Long => (0, None),
        }
    }

    /// The region that a refusal records.
    fn fault_region(self) -> u64 {
        match self.bar {
            Bar::NoMatch => 0,
            Bar::Hidden => 3,
            Bar::Lacking => 10,
        }
    }

    fn class(self) -> String {
        let place = if self.inside { "inside" } else { "outside" };
        format!("{:?} {place}: {}", self.word, self.told().0)
    }
}

/// Regions 3 and 10, of which bytes from `pc` on and before `pc + granted`
/// have execute permission; the next byte has what the bar says.
fn code(bar: Bar, pc: u64, granted: u64) -> [Region; 2] {
    let bytes = |base: u64, k: u64, permission: u64| Region { base, bound: ALL << k, permission };
    let whole = |permission: u64| bytes(0, 8, permission);
    let none = Region::default();
    match (bar, granted) {
        (_, 4) => [whole(4), none],
        (Bar::Hidden, _) => [bytes(pc + granted, 0, 0), whole(4)],
        (Bar::NoMatch, 0) => [none, none],
        (Bar::Lacking, 0) => [none, whole(0)],
        // 3 bytes are no region of their own, so 10 has the third, and what lacks the permission is then not 10.
        (Bar::NoMatch, 3) => [bytes(pc, 1, 4), bytes(pc + 2, 0, 4)],
        (Bar::NoMatch, n) => [bytes(pc, n - 1, 4), none],
        (Bar::Lacking, n) => [bytes(pc, n - 1, 4), whole(0)],
    }
}

impl Supply {
    fn aimed_word(&mut self, word: Word) -> u32 {
        loop {
            let (any, half) = (self.next() as u32, self.half_word());
            let other = (any >> 16 << 16) | half as u32;
            match (word, expand(half).is_some()) {
                (Word::Half, _) => {
                    let value = self.below(63) as i64 - 31;
                    let addi = Instruction::Immediate { kind: ImmediateKind::Addi, rd: 1 + self.below(31), rs1: 0, value };
                    return (any >> 16 << 16) | self.pick(shortened(&addi)) as u32;
                }
                (Word::ReservedHalf, false) => return other,
                (Word::Long, _) => {
                    let kind = ImmediateKind::Xori;
                    return encode(&Instruction::Immediate { kind, rd: 7, rs1: 6, value: self.below(4096) as i64 - 2048 }).expect("in range");
                }
                (Word::IllegalLong, _) if any % 4 == 3 && decode(any).is_none() => return any,
                _ => {}
            }
        }
    }

    /// A machine about to make an aimed fetch; what is absent is past the end of memory.
    pub fn aimed_fetch(&mut self, aim: Aim) -> (Machine, Vec<u8>) {
        let even = 32 + 4 * self.below(40) + aim.past / 2 * 2;
        let mut machine = self.well_formed_machine(LENGTH);
        machine.pc = even + aim.past % 2;
        machine.mode = aim.inside as u64;
        machine.options = self.below(8) * 2;
        let [three, ten] = code(aim.bar, even, aim.refused);
        (machine.regions[2], machine.regions[9]) = (three, ten);
        let mut bytes: Vec<u8> = (0..LENGTH).map(|_| self.next() as u8).collect();
        let at = even as usize;
        bytes[at..at + 4].copy_from_slice(&self.aimed_word(aim.word).to_le_bytes());
        if aim.absent < 4 {
            bytes.truncate(at + aim.absent as usize);
        }
        (machine, bytes)
    }
}

/// How many rounds it takes until each aim has been met.
const TURNS: usize = 7;

/// Not 3 bytes granted and the fourth lacking: two regions cannot have it so.
/// Of odd pcs a few are enough.
fn wanted(aim: &Aim) -> bool {
    let lacking = aim.bar == Bar::Lacking && aim.refused == 3;
    !lacking && (aim.past % 2 == 0 || [0, 4].contains(&aim.refused) && aim.refused == aim.absent)
}

/// Aimed fetches as steps and as runs of 1.
fn compare_fetches(left: &dyn Engine, right: &dyn Engine, supply: &mut Supply, turn: usize, counts: &mut Counts) {
    for aim in aims().into_iter().filter(wanted).skip(turn % TURNS).step_by(TURNS) {
        let (mut machine, mut bytes) = supply.aimed_fetch(aim);
        let before = machine;
        compare_run(left, right, &machine, &bytes, 1, counts);
        compare_step(left, right, &mut machine, &mut bytes, counts);
        let (stop, byte) = aim.told();
        let mut expected = before;
        if let (11, Some(byte)) = (stop, byte) {
            expected.fault = crate::Fault { occurred: 1, region: aim.fault_region(), op: 3, address: before.pc + byte };
        }
        let good = match stop {
            0 => machine.pc == before.pc + aim.length(),
            _ => machine == expected,
        };
        let answer = left.step(&mut before.clone(), &mut bytes.clone());
        let address = if stop == 12 { before.pc + byte.unwrap_or(0) } else { 0 };
        if !good || answer != Some((stop, address)) {
            counts.difference(format!("{aim:?}: {answer:?}, not {stop} and {address:x}"));
        }
        *counts.fetches.entry(aim.class()).or_default() += 1;
    }
}

/// A word that goes elsewhere.
#[derive(Clone, Copy, Debug, PartialEq, Eq)]
pub enum Jump {
    Jal,
    Jalr,
    Branch,
    EnterJump,
    HalfJ,
    HalfJr,
    HalfJalr,
    HalfBeqz,
    HalfBnez,
}

pub const JUMPS: [Jump; 9] = [
    Jump::Jal,
    Jump::Jalr,
    Jump::Branch,
    Jump::EnterJump,
    Jump::HalfJ,
    Jump::HalfJr,
    Jump::HalfJalr,
    Jump::HalfBeqz,
    Jump::HalfBnez,
];

/// The instruction of a jump over `distance` to `target`, and whether a half-word has it. x5 holds the target, x6 an
/// operand, x8 is 0 and x9 is 1.
fn jump(jump: Jump, distance: i64) -> (Instruction, bool) {
    let (beq, bne) = (BranchKind::Beq, BranchKind::Bne);
    match jump {
        Jump::Jal => (Instruction::Jal { rd: 1, offset: distance }, false),
        Jump::Jalr => (Instruction::Jalr { rd: 1, rs1: 5, offset: 0 }, false),
        Jump::Branch => (Instruction::Branch { kind: beq, rs1: 8, rs2: 0, offset: distance }, false),
        Jump::EnterJump => (Instruction::Hfi { kind: HfiKind::EnterJump, rd: 0, rs1: 6, rs2: 5 }, false),
        Jump::HalfJ => (Instruction::Jal { rd: 0, offset: distance }, true),
        Jump::HalfJr => (Instruction::Jalr { rd: 0, rs1: 5, offset: 0 }, true),
        Jump::HalfJalr => (Instruction::Jalr { rd: 1, rs1: 5, offset: 0 }, true),
        Jump::HalfBeqz => (Instruction::Branch { kind: beq, rs1: 8, rs2: 0, offset: distance }, true),
        Jump::HalfBnez => (Instruction::Branch { kind: bne, rs1: 9, rs2: 0, offset: distance }, true),
    }
}

/// Each jump from an even place to each of the four places past a multiple of 4, as a step and as a run of 2: "15 remains
/// only for the target of an enter with jump, which must be a multiple of 2; jumps and branches never get it".
fn compare_jumps(left: &dyn Engine, right: &dyn Engine, supply: &mut Supply, counts: &mut Counts) {
    for (kind, from, to) in JUMPS.into_iter().flat_map(|kind| (0..8).map(move |n| (kind, n / 4 * 2, n % 4))) {
        let by_register = [Jump::Jalr, Jump::EnterJump, Jump::HalfJr, Jump::HalfJalr].contains(&kind);
        if to % 2 == 1 && !by_register {
            continue; // an offset is even
        }
        let (pc, target) = (32 + 4 * supply.below(20) + from, 32 + 4 * supply.below(20) + to);
        let (instruction, short) = jump(kind, target as i64 - pc as i64);
        let mut machine = supply.well_formed_machine(LENGTH);
        (machine.pc, machine.mode, machine.options) = (pc, 0, 0);
        (machine.x[5], machine.x[6], machine.x[8], machine.x[9]) = (target, 0, 0, 1);
        let mut bytes: Vec<u8> = (0..LENGTH).map(|_| supply.next() as u8).collect();
        let at = pc as usize;
        bytes[at..at + 4].copy_from_slice(&encode(&instruction).expect("in range").to_le_bytes());
        if short {
            bytes[at..at + 2].copy_from_slice(&supply.pick(shortened(&instruction)).to_le_bytes());
        }
        compare_run(left, right, &machine, &bytes, 2, counts);
        let (link, refused) = (machine.x[1], kind == Jump::EnterJump && to % 2 == 1);
        let completed = compare_step(left, right, &mut machine, &mut bytes, counts);
        let expected_link = match instruction {
            Instruction::Jal { rd: 1, .. } | Instruction::Jalr { rd: 1, .. } => pc + if short { 2 } else { 4 },
            _ => link,
        };
        let expected_pc = if refused { pc } else { target / 2 * 2 };
        if completed == refused || machine.pc != expected_pc || machine.x[1] != expected_link {
            counts.difference(format!("{kind:?} from {pc:x} to {target:x}: pc {:x}, x1 {:x}", machine.pc, machine.x[1]));
        }
        *counts.fetches.entry(format!("{kind:?} to {to} past a multiple of 4{}", if refused { ": 15" } else { "" })).or_default() += 1;
    }
}

/// What a round makes of this.
pub fn compare(left: &dyn Engine, right: &dyn Engine, supply: &mut Supply, round: usize, counts: &mut Counts) {
    compare_fetches(left, right, supply, round, counts);
    compare_jumps(left, right, supply, counts);
}

/// Every 16-bit number as the word at pc, outside HFI mode and inside: half-words, and first halves of long words that any
/// second half follows. Most registers point into ordinary data, some are 0 or edges.
pub fn every_half_word(left: &dyn Engine, right: &dyn Engine, seed: u64, counts: &mut Counts) {
    const SIZE: u64 = 4_096;
    let mut supply = Supply::new(seed);
    let data: Vec<u8> = (0..SIZE).map(|_| supply.next() as u8).collect();
    for (half, mode) in (0..=u16::MAX).flat_map(|half| [(half, 0), (half, 1)]) {
        let mut machine = Machine { pc: 0x40 + 2 * supply.below(4), mode, options: 2 * supply.below(8), ..Machine::default() };
        machine.regions[1] = Region { base: 0x800, bound: ALL << 11, permission: 3 };
        machine.regions[2] = Region { base: 0, bound: ALL << 10, permission: 4 };
        for n in 1..32 {
            machine.x[n] = match supply.below(8) {
                0 => 0,
                1 => supply.edge(),
                _ => 0x900 + supply.below(0x600),
            };
        }
        let (mut bytes, at) = (data.clone(), machine.pc as usize);
        bytes[at..at + 2].copy_from_slice(&half.to_le_bytes());
        compare_step(left, right, &mut machine, &mut bytes, counts);
        if let Some(row) = row(half).filter(|_| expand(half).is_some()) {
            *counts.fetches.entry(row.0.to_string()).or_default() += 1;
        } else {
            *counts.fetches.entry(if begins_long_word(half) { "first halves" } else { "illegal half-words" }.to_string()).or_default() += 1;
        }
    }
}

/// The aimed fetches and jumps that were not met, and the rows of RV64C.
pub fn unmet(met: &Met) -> Vec<String> {
    let fetches = aims().into_iter().filter(wanted).map(Aim::class);
    let rows = ROWS.iter().map(|row| row.0.to_string());
    let mut lacking: Vec<String> = fetches.chain(rows).filter(|class| !met.contains_key(class)).collect();
    lacking.dedup();
    for kind in JUMPS {
        if !met.keys().any(|class| class.starts_with(&format!("{kind:?} to 2"))) {
            lacking.push(format!("{kind:?}"));
        }
    }
    lacking.into_iter().map(|class| format!("no step of: {class}")).collect()
}

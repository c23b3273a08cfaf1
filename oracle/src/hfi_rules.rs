//! Words that question 8 is about, wherever they can stand, with good operands
//! and bad ones: as a step, at the end of a run and on a sheet. Job 6 says
//! which number each gets.

use std::collections::BTreeMap;

use crate::calls::{Answer, Call, Request};
use crate::compare::{compare_sheet, Counts, Engine};
use crate::instruction::{encode, HfiKind, ImmediateKind, Instruction, ShiftKind, HFI_TABLE, LOAD_TABLE, STORE_TABLE};
use crate::machine::{permission_fits, Machine, Region};
use crate::overlap::code_is_writable;
use crate::supply::{sheet_of, Supply};

const ALL: u64 = u64::MAX;

/// The memory of aimed words.
const LENGTH: usize = 128;

#[derive(Clone, Copy, Debug, PartialEq, Eq, PartialOrd, Ord)]
pub enum Place {
    Outside,
    /// Outside HFI mode with the lock bit set.
    OutsideLock,
    Unlocked,
    Locked,
}

pub const PLACES: [Place; 4] = [Place::Outside, Place::OutsideLock, Place::Unlocked, Place::Locked];

/// What else would be refused.
#[derive(Clone, Copy, Debug, PartialEq, Eq, PartialOrd, Ord)]
pub enum Flaw {
    Nothing,
    /// An options operand above 15, a number not 1 to 10, or a permission bit
    /// that the region lacks.
    Operand,
    /// Nothing is selected.
    Selection,
    /// The target is no multiple of 2.
    Target,
    /// Both of an enter with jump.
    OperandAndTarget,
    /// An enter that locks, and a byte is writable and executable.
    Code,
}

/// A word, where it stands and what else is wrong with it. Words go by funct7,
/// and then h-loads and h-stores.
#[derive(Clone, Copy, Debug, PartialEq, Eq, PartialOrd, Ord)]
pub struct Aim {
    pub word: usize,
    pub place: Place,
    pub flaw: Flaw,
}

const ENTER: usize = 0;
const ENTER_JUMP: usize = 1;
const EXIT: usize = 2;
const SELECT: usize = 3;
const SET_BASE: usize = 4;
const SET_PERMISSION: usize = 8;
const GET_PERMISSION: usize = 9;
const SET_HANDLER: usize = 10;
const RESET: usize = 12;
const H_LOAD: usize = 13;
const H_STORE: usize = 14;

fn flaws(word: usize) -> &'static [Flaw] {
    match word {
        ENTER => &[Flaw::Nothing, Flaw::Operand, Flaw::Code],
        ENTER_JUMP => &[Flaw::Nothing, Flaw::Operand, Flaw::Target, Flaw::OperandAndTarget, Flaw::Code],
        SELECT => &[Flaw::Nothing, Flaw::Operand],
        SET_PERMISSION => &[Flaw::Nothing, Flaw::Operand, Flaw::Selection],
        SET_BASE..=GET_PERMISSION => &[Flaw::Nothing, Flaw::Selection],
        _ => &[Flaw::Nothing],
    }
}

/// Every aim of a round. A locked machine with writable code is refused by 4.
pub fn aims() -> Vec<Aim> {
    let mut all = Vec::new();
    for word in ENTER..=H_STORE {
        for place in PLACES {
            all.extend(flaws(word).iter().map(|flaw| Aim { word, place, flaw: *flaw }));
        }
    }
    all.retain(|aim| aim.flaw != Flaw::Code || aim.place != Place::Locked);
    all
}

impl Aim {
    /// The number that documents 01 and 02 give it; 0 if none of question 8's.
    pub fn told(&self) -> u64 {
        let inside = self.place >= Place::Unlocked;
        let bad = [Flaw::Operand, Flaw::Selection, Flaw::OperandAndTarget].contains(&self.flaw);
        match self.word {
            ENTER | ENTER_JUMP if inside => 23,
            EXIT if !inside => 24,
            SET_HANDLER if inside => 25,
            SELECT..=RESET if self.place == Place::Locked => 25,
            H_LOAD | H_STORE if !inside => 14,
            _ if bad => 14,
            _ => 0,
        }
    }

    /// Can a sheet come to it? It starts in HFI mode and ends where it leaves,
    /// and a locked one selects nothing.
    pub fn on_a_sheet(&self) -> bool {
        let selects = (SET_BASE..=GET_PERMISSION).contains(&self.word) && self.flaw != Flaw::Selection;
        match self.place {
            Place::Outside | Place::OutsideLock => false,
            Place::Unlocked => true,
            Place::Locked => !selects,
        }
    }

    fn name(&self) -> String {
        let word = match self.word {
            H_LOAD => "h-load".to_string(),
            H_STORE => "h-store".to_string(),
            funct7 => format!("{:?}", HFI_TABLE[funct7].0),
        };
        format!("{word}, {:?}, {:?}", self.place, self.flaw)
    }
}

/// How often each aim was met: as a step, in a run, on a sheet.
pub type Met = BTreeMap<Aim, [u64; 3]>;

/// The aims that were not met.
pub fn unmet(met: &Met) -> Vec<String> {
    let mut lacking = Vec::new();
    for aim in aims() {
        let [step, run, sheet] = met.get(&aim).copied().unwrap_or_default();
        for (how, count, due) in [("step", step, true), ("run", run, true), ("sheet", sheet, aim.on_a_sheet())] {
            if due && count == 0 {
                lacking.push(format!("no {how} of: {}", aim.name()));
            }
        }
    }
    lacking
}

/// Of how many aims each number was met, in each way.
pub fn by_number(met: &Met) -> BTreeMap<u64, [u64; 3]> {
    let mut all: BTreeMap<u64, [u64; 3]> = BTreeMap::new();
    for (aim, counts) in met {
        let entry = all.entry(aim.told()).or_default();
        (0..3).for_each(|n| entry[n] += counts[n]);
    }
    all
}

impl Supply {
    /// A number above 15, often one whose low half is small.
    fn above_fifteen(&mut self) -> u64 {
        match self.below(4) {
            0 => 16 + self.below(16),
            1 => self.below(16) + (1 << (32 + self.below(32))),
            2 => self.pick(&[16, 17, 1 << 32, 1 << 63, ALL]),
            _ => self.edge() | 16,
        }
    }

    fn no_region(&mut self) -> u64 {
        match self.below(3) {
            0 if self.ten() => self.pick(&[0, 11, 12, 1 << 63, ALL]),
            1 if self.ten() => 1 + self.below(10) + (1 << (32 + self.below(32))),
            _ if self.ten() => self.edge() | 16,
            0 => self.pick(&[0, 4, 5, 1 << 63, ALL]),
            1 => 1 + self.below(3) + (1 << (32 + self.below(32))),
            _ => self.edge() | 4,
        }
    }

    /// The number of a region; before Job 7 of one of three.
    fn some_region(&mut self) -> u64 {
        1 + self.below(if self.ten() { 10 } else { 3 })
    }

    /// A permission with or without a bit that the region lacks.
    fn permission(&mut self, number: usize, fits: bool) -> u64 {
        loop {
            let more = if fits { 0 } else { 1u64 << self.pick(&[0, 1, 2, 3, 4, 32, 63]) };
            let value = self.below(16) | more;
            if permission_fits(number, value) == fits {
                return value;
            }
        }
    }

    /// The operand that the aim wants, of a machine with this selector.
    fn rule_operand(&mut self, aim: Aim, selector: u64) -> u64 {
        let bad = [Flaw::Operand, Flaw::OperandAndTarget].contains(&aim.flaw);
        match aim.word {
            ENTER | ENTER_JUMP if bad => self.above_fifteen(),
            ENTER | ENTER_JUMP if aim.flaw == Flaw::Code => self.below(8) * 2 + 1,
            ENTER | ENTER_JUMP => self.below(16),
            SELECT if bad => self.no_region(),
            SELECT => self.some_region(),
            SET_PERMISSION if selector > 0 => self.permission(selector as usize, !bad),
            _ => self.edge(),
        }
    }

    /// The aim's word by these registers; an h-word with an offset of 0 to 7.
    fn rule_word(&mut self, aim: Aim, rd: u64, rs1: u64, rs2: u64) -> Instruction {
        let offset = self.below(8) as i64;
        match aim.word {
            H_LOAD => {
                let kind = self.pick(&LOAD_TABLE).0;
                Instruction::HLoad { kind, region: self.choice(), rd: rd % 16, rs1: 0, offset }
            }
            H_STORE => {
                let kind = self.pick(&STORE_TABLE).0;
                Instruction::HStore { kind, region: self.choice(), rs1: 0, rs2: rs2 % 16, offset }
            }
            funct7 => {
                let (kind, has_rd, has_rs1, has_rs2) = HFI_TABLE[funct7];
                let keep = |has: bool, register: u64| if has { register } else { 0 };
                Instruction::Hfi { kind, rd: keep(has_rd, rd), rs1: keep(has_rs1, rs1), rs2: keep(has_rs2, rs2) }
            }
        }
    }

    fn rule_target(&mut self, aim: Aim) -> u64 {
        let odd = [Flaw::Target, Flaw::OperandAndTarget].contains(&aim.flaw);
        self.below(LENGTH as u64 / 4) * 4 + if odd { 1 + 2 * self.below(2) } else { 0 }
    }

    /// Any machine in that place, well formed, with code in all of memory.
    fn rule_machine(&mut self, aim: Aim) -> Machine {
        let mut machine = self.well_formed_machine(LENGTH);
        let lock = [Place::OutsideLock, Place::Locked].contains(&aim.place) as u64;
        machine.mode = (aim.place >= Place::Unlocked) as u64;
        machine.options = self.below(8) * 2 + lock;
        machine.selector = if aim.flaw == Flaw::Selection { 0 } else { self.some_region() };
        machine.regions[2] = Region { base: 0, bound: ALL << 7, permission: 4 };
        if aim.flaw == Flaw::Code {
            machine.regions[1] = Region { base: 0, bound: ALL << (3 + self.below(8)), permission: 2 + self.below(2) };
        } else if code_is_writable(&machine) {
            self.part(&mut machine);
        }
        machine
    }

    /// A machine about to make the word of an aim, its memory, and how many
    /// steps before it can be begun: each adds 1 to x30, and so do two after it.
    pub fn rule_world(&mut self, aim: Aim) -> (Machine, Vec<u8>, u64) {
        let mut machine = self.rule_machine(aim);
        let (rd, rs1, rs2) = (self.below(30), 1 + self.below(14), 15 + self.below(15));
        let operand = self.rule_operand(aim, machine.selector);
        let target = self.rule_target(aim);
        machine.set(rs1, operand);
        machine.set(rs2, target);
        let word = encode(&self.rule_word(aim, rd, rs1, rs2)).expect("in range");
        let before = encode(&Instruction::Immediate { kind: ImmediateKind::Addi, rd: 30, rs1: 30, value: 1 }).expect("in range");
        let (mut memory, steps) = (vec![0; LENGTH], self.below(5));
        let place = steps + self.below(8);
        for n in place - steps..place + 3 {
            let at = 4 * n as usize;
            memory[at..at + 4].copy_from_slice(&(if n == place { word } else { before }).to_le_bytes());
        }
        machine.pc = 4 * place;
        (machine, memory, steps)
    }

    /// The lines of a sheet that comes to the word of an aim, and how many steps
    /// it takes to there.
    fn rule_lines(&mut self, aim: Aim) -> (Vec<Vec<u8>>, u64) {
        let selector = if aim.flaw == Flaw::Selection || aim.place == Place::Locked { 0 } else { self.some_region() };
        let options = self.below(8) * 2 + (aim.place == Place::Locked) as u64;
        let mut program = Vec::new();
        if selector > 0 {
            program.extend(put_number(7, selector));
            program.push(Instruction::Hfi { kind: HfiKind::Select, rd: 0, rs1: 7, rs2: 0 });
        }
        let operand = self.rule_operand(aim, selector);
        let target = self.rule_target(aim);
        program.extend(put_number(5, operand));
        program.extend(put_number(6, target));
        let steps = program.len() as u64;
        program.push(self.rule_word(aim, 10, 5, 6));
        // Ordinary data is code's neighbour, or code itself; h-words have 64 bytes elsewhere.
        let data = if aim.flaw == Flaw::Code { 0 } else { 0x1000 };
        let budget = steps + 1 + self.below(4);
        let mut setup = vec![0, options, self.below(64) * 4, 0x8000, 0x40, 3, data, ALL << 12, 3, 0, ALL << 12, 4];
        if self.once_in(2) {
            setup.extend([0x8000, 0x40, 3].repeat(3));
            setup.extend([0; 12]);
        }
        setup.push(budget);
        let first: Vec<String> = setup.into_iter().map(|value| format!("{value:x}")).collect();
        let mut lines = vec![first.join(",").into_bytes()];
        for (n, instruction) in program.iter().enumerate() {
            lines.push(format!("{:x},{:x}", 4 * n, encode(instruction).expect("in range")).into_bytes());
        }
        (lines, steps)
    }
}

/// Words that put a number below 2,048 into a register; of a larger one its
/// first bit and its last ten.
fn put_number(register: u64, value: u64) -> Vec<Instruction> {
    let addi = |rs1: u64, value: u64| Instruction::Immediate { kind: ImmediateKind::Addi, rd: register, rs1, value: value as i64 };
    if value < 2048 {
        return vec![addi(0, value)];
    }
    let amount = 63 - value.leading_zeros() as u64;
    let shift = Instruction::Shift { kind: ShiftKind::Slli, rd: register, rs1: register, amount };
    vec![addi(0, 1), shift, addi(register, value & 1023)]
}

/// The step, and the run that comes to it after so many others.
pub fn aimed_calls(supply: &mut Supply, aim: Aim) -> [Call; 2] {
    let (machine, bytes, steps) = supply.rule_world(aim);
    let mut begun = machine;
    begun.pc -= 4 * steps;
    begun.x[30] = begun.x[30].wrapping_sub(steps);
    let budget = steps + 1 + supply.below(3);
    let call = |request, machine| Call { name: aim.name(), request, machine, length: LENGTH, bytes: bytes.clone() };
    [call(Request::Step, machine), call(Request::Run(budget), begun)]
}

/// Is the answer as the aim says? A refused word leaves the machine that came
/// to it; a run that goes on may come to it again.
fn as_told(aim: Aim, step: &Call, call: &Call, answer: &Answer) -> bool {
    let count = match call.request {
        Request::Run(_) => (step.machine.pc - call.machine.pc) / 4,
        _ => 0,
    };
    match aim.told() {
        0 => answer.count > count || ![14, 23, 24, 25].contains(&answer.stop),
        number => *answer == Answer { stop: number, count, address: 0, machine: step.machine, bytes: step.bytes.clone() },
    }
}

/// So many sheets a round, each of another aim.
const SHEETS: usize = 10;

/// Every aim as a step and within a run, and some on a sheet, both engines.
pub fn compare(left: &dyn Engine, right: &dyn Engine, supply: &mut Supply, round: usize, counts: &mut Counts) {
    for aim in aims() {
        let calls = aimed_calls(supply, aim);
        for (n, call) in calls.iter().enumerate() {
            let answer = call.answer(left).expect("the measure answers");
            counts.rules.entry(aim).or_default()[n] += 1;
            if !as_told(aim, &calls[0], call, &answer) {
                counts.difference(format!("{} is answered by {}", call.written(), answer.written("")));
            }
            let Some(other) = call.answer(right) else { continue };
            counts.compared += 1;
            if answer != other {
                let told = [answer.written(&left.title()), other.written(&right.title())];
                counts.difference(format!("{}{}{}", call.written(), told[0], told[1]));
            }
        }
    }
    let reached: Vec<Aim> = aims().into_iter().filter(Aim::on_a_sheet).collect();
    for n in 0..SHEETS {
        compare_rule_sheet(left, right, supply, reached[(round * SHEETS + n) % reached.len()], counts);
    }
}

/// A sheet that comes to the word of an aim.
pub fn compare_rule_sheet(left: &dyn Engine, right: &dyn Engine, supply: &mut Supply, aim: Aim, counts: &mut Counts) {
    let (lines, steps) = supply.rule_lines(aim);
    let printed = compare_sheet(left, right, &sheet_of(&lines), counts);
    let good = match aim.told() {
        0 => !["14,", "23,", "24,", "25,"].iter().any(|stop| printed.starts_with(stop)),
        number => printed.starts_with(&format!("{number},{steps:x},{:x},0,0,0,0,0,0\n", 4 * steps)),
    };
    if good {
        counts.rules.entry(aim).or_default()[2] += 1;
    } else {
        counts.difference(format!("a sheet of {} is answered by {printed:?}", aim.name()));
    }
}

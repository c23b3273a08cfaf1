//! What Job 9 of document 02 claims of several turns, as experiments on one
//! engine. Where no slot (the document's deck) can write a byte that another
//! can read, write or execute, each goes on as if it alone had made its turns;
//! and a slot that stays unstopped has its turn before another has two.

use std::collections::BTreeMap;

use crate::compare::{Counts, Engine};
use crate::instruction::{
    encode, BranchKind, HfiKind, ImmediateKind, Instruction, SystemKind, BRANCH_TABLE, IMMEDIATE_TABLE, LOAD_TABLE, REGISTER_TABLE, SHIFT_TABLE,
    STORE_TABLE,
};
use crate::machine::{region_kind, Fault, Machine, Region, RegionKind, EXPLICIT, IMPLICIT_DATA, REGIONS, WRITE};
use crate::numbers::add;
use crate::overlap::{code_is_writable, executable_intervals, extent};
use crate::reach::{executable, readable, writable};
use crate::scheduler::{Answer, Scheduler, Slot, SLOTS};
use crate::supply::Supply;
use crate::turns::{any_allowance, show_scheduler, stopped_stop};

const ALL: u64 = u64::MAX;

/// How often each class was met, by engine.
pub type Met = BTreeMap<(&'static str, String), u64>;

/// One round in so many has the experiments: they look at every byte.
const APART_EVERY: u64 = 2;

pub fn compare(left: &dyn Engine, right: &dyn Engine, supply: &mut Supply, round: u64, counts: &mut Counts) {
    if round % APART_EVERY != 0 {
        return;
    }
    let kind = KINDS[(round / APART_EVERY) as usize % KINDS.len()];
    let set = set_of(supply, kind);
    let plan = any_plan(supply);
    let judged = Judged::of(&set);
    experiment(left, &set, &judged, &plan, counts);
    experiment(right, &set, &judged, &plan, counts);
}

// ---- own bytes, and whether they are apart

/// What a slot can do to a byte, by the regions of its machine.
#[derive(Clone, Copy, Debug, Default, PartialEq, Eq)]
pub struct Reach {
    pub read: bool,
    pub write: bool,
    pub execute: bool,
}

impl Reach {
    /// "A deck's own bytes are those it can read, write or execute."
    pub fn own(self) -> bool {
        self.read || self.write || self.execute
    }
}

/// What a machine can do to each byte of memory.
pub fn reaches(machine: &Machine, length: usize) -> Vec<Reach> {
    let at = |byte: u64| Reach { read: readable(machine, byte), write: writable(machine, byte), execute: executable(machine, byte) };
    (0..length as u64).map(at).collect()
}

/// Slots, their memory, and what the main loop does.
pub struct Set {
    pub scheduler: Scheduler,
    pub memory: Vec<u8>,
}

/// What a turn has: the place that the main loop sets, if it sets one, and the
/// allowance.
#[derive(Clone, Copy, Debug)]
pub struct Step {
    pub place: Option<u64>,
    pub allowance: u64,
}

/// "Take the decks unstopped before the turns compared": their numbers, and
/// what each can do to each byte.
pub struct Judged {
    pub slots: Vec<u64>,
    pub reaches: Vec<Vec<Reach>>,
    /// "none can write a byte that another of them can read, write or execute"
    pub apart: bool,
}

impl Judged {
    pub fn of(set: &Set) -> Judged {
        let slots: Vec<u64> = (1..=set.scheduler.count).filter(|n| !set.scheduler.slot(*n).stopped()).collect();
        let reaches: Vec<Vec<Reach>> = slots.iter().map(|n| reaches(&set.scheduler.slot(*n).machine, set.memory.len())).collect();
        let meets = |a: &[Reach], b: &[Reach]| a.iter().zip(b).any(|(a, b)| a.write && b.own());
        let apart = pairs(slots.len()).iter().all(|(i, j)| !meets(&reaches[*i], &reaches[*j]));
        Judged { slots, reaches, apart }
    }

    /// Is there a byte to which two of them can do this?
    fn share(&self, what: fn(Reach) -> bool) -> bool {
        pairs(self.slots.len()).iter().any(|(i, j)| self.reaches[*i].iter().zip(&self.reaches[*j]).any(|(a, b)| what(*a) && what(*b)))
    }
}

/// Each of so many with each other one.
fn pairs(many: usize) -> Vec<(usize, usize)> {
    (0..many).flat_map(|i| (0..many).filter(move |j| *j != i).map(move |j| (i, j))).collect()
}

// ---- the experiments

/// What some turns have left, and what each answered.
struct Taken {
    scheduler: Scheduler,
    memory: Vec<u8>,
    answers: Vec<Answer>,
}

fn take(engine: &dyn Engine, scheduler: &Scheduler, memory: &[u8], plan: &[Step]) -> Option<Taken> {
    let mut taken = Taken { scheduler: *scheduler, memory: memory.to_vec(), answers: Vec::new() };
    for step in plan {
        if let Some(place) = step.place {
            taken.scheduler.place = place;
        }
        taken.answers.push(engine.turn(&mut taken.scheduler, &mut taken.memory, step.allowance)?);
    }
    Some(taken)
}

/// The turns of a slot in the plan, as if there were no other slot.
fn take_alone(engine: &dyn Engine, slot: &Slot, memory: &[u8], plan: &[Step]) -> Option<Taken> {
    let mut scheduler = Scheduler { count: 1, place: 1, ..Scheduler::default() };
    scheduler.slots[0] = *slot;
    take(engine, &scheduler, memory, plan)
}

/// All turns together, then the turns of each slot that was not stopped by
/// themselves: where the slots are apart, its machine, the stop, count and
/// address of each of its turns and its own bytes must be the same. Where they
/// are not, how often something is not is counted.
pub fn experiment(engine: &dyn Engine, set: &Set, judged: &Judged, plan: &[Step], counts: &mut Counts) {
    let Some(together) = take(engine, &set.scheduler, &set.memory, plan) else { return };
    counts.compared += 1;
    if let Some(answer) = together.answers.iter().find(|answer| answer.slot > set.scheduler.count) {
        return counts.difference(format!("turns of {}: {answer:?}, where there are {} slots", engine.title(), set.scheduler.count));
    }
    let mut faults = Vec::new();
    for (n, reach) in judged.slots.iter().zip(&judged.reaches) {
        faults.extend(slot_fault(engine, set, *n, reach, plan, &together));
    }
    let shown = || format!("{}\n  plan {plan:?}\n  answers {:?}", show_scheduler(&set.scheduler), together.answers);
    if judged.apart {
        faults.iter().for_each(|fault| counts.difference(format!("turns of {}: {fault}\n  before {}", engine.title(), shown())));
    }
    for fault in book_faults(set, plan, &together) {
        counts.difference(format!("turns of {}: {fault}\n  before {}", engine.title(), shown()));
    }
    count(engine, set, judged, plan, &together, faults.len() as u64, counts);
}

/// What differs for slot n between its turns together and alone.
fn slot_fault(engine: &dyn Engine, set: &Set, n: u64, reach: &[Reach], plan: &[Step], together: &Taken) -> Option<String> {
    let turns = || plan.iter().zip(&together.answers).filter(|(_, answer)| answer.slot == n);
    let own_plan: Vec<Step> = turns().map(|(step, _)| Step { place: None, ..*step }).collect();
    let alone = take_alone(engine, set.scheduler.slot(n), &set.memory, &own_plan)?;
    let told = |answer: &Answer| (answer.stop, answer.count, answer.address);
    let here: Vec<_> = turns().map(|(_, answer)| told(answer)).collect();
    let there: Vec<_> = alone.answers.iter().map(told).collect();
    if here != there {
        return Some(format!("slot {n} answers {here:x?}, alone {there:x?}"));
    }
    if together.scheduler.slot(n) != alone.scheduler.slot(1) {
        return Some(format!("slot {n} has another machine or stop than alone"));
    }
    let apart = (0..reach.len()).find(|byte| reach[*byte].own() && together.memory[*byte] != alone.memory[*byte]);
    apart.map(|byte| format!("byte {byte:x} of slot {n} is another than alone"))
}

/// What holds of every set: fairness where the main loop sets no place, and
/// the total.
fn book_faults(set: &Set, plan: &[Step], together: &Taken) -> Vec<String> {
    let mut faults = Vec::new();
    if plan.iter().all(|step| step.place.is_none()) {
        faults.extend(unfair(&set.scheduler, &together.answers));
    }
    let total = together.answers.iter().fold(set.scheduler.total, |total, answer| add(total, answer.count));
    if together.scheduler.total != total {
        faults.push(format!("the total is {:x} and not {total:x}", together.scheduler.total));
    }
    faults
}

/// "a deck that stays unstopped gets its turn before any other deck gets two":
/// what is against it in these answers.
pub fn unfair(before: &Scheduler, answers: &[Answer]) -> Option<String> {
    let mut unstopped: [bool; SLOTS] = std::array::from_fn(|n| (n as u64) < before.count && !before.slots[n].stopped());
    // waited[s][t]: how many turns t has had since the last one of s, or since the beginning.
    let mut waited = [[0; SLOTS]; SLOTS];
    for (number, answer) in answers.iter().enumerate().filter(|(_, answer)| answer.slot != 0) {
        let t = answer.slot as usize - 1;
        for s in (0..SLOTS).filter(|s| *s != t && unstopped[*s]) {
            waited[s][t] += 1;
            if waited[s][t] > 1 {
                return Some(format!("turn {number} is the second of slot {} while slot {} waits", t + 1, s + 1));
            }
        }
        waited[t] = [0; SLOTS];
        unstopped[t] = answer.stop == 21;
    }
    None
}

// ---- what was met

/// A set, its turns, and how many slots differ when they are alone.
struct Seen<'a> {
    set: &'a Set,
    judged: &'a Judged,
    plan: &'a [Step],
    together: &'a Taken,
    differing: u64,
}

impl Seen<'_> {
    fn runs(&self) -> impl Iterator<Item = &Answer> {
        self.together.answers.iter().filter(|answer| answer.slot != 0)
    }

    /// Slots that are apart and have turns; with one slot there is nothing to be apart from.
    fn apart(&self) -> bool {
        self.judged.apart && self.judged.slots.len() > 1 && self.runs().next().is_some()
    }

    fn of(&self, many: usize) -> bool {
        self.apart() && self.judged.slots.len() == many
    }

    /// A slot that has had two turns, between which another had one.
    fn mixed(&self) -> bool {
        let slots: Vec<u64> = self.runs().map(|answer| answer.slot).collect();
        let first_change = slots.iter().position(|slot| *slot != slots[0]);
        first_change.is_some_and(|at| slots[at..].contains(&slots[0]))
    }

    /// A stopped slot that could write own bytes of one that is not.
    fn stopped_writer(&self) -> bool {
        let own = |byte: usize| self.judged.reaches.iter().any(|reach| reach[byte].own());
        let stopped = self.set.scheduler.slots.iter().filter(|slot| slot.stopped());
        stopped.into_iter().any(|slot| reaches(&slot.machine, self.set.memory.len()).iter().enumerate().any(|(byte, reach)| reach.write && own(byte)))
    }

    fn refused(&self) -> bool {
        self.together.answers.iter().any(|answer| answer.stop == 51)
    }

    fn placed(&self) -> bool {
        self.plan.iter().any(|step| step.place.is_some())
    }

    fn controlled(&self) -> bool {
        !self.judged.apart && self.runs().next().is_some()
    }
}

type Class = (&'static str, fn(&Seen) -> bool);

const CLASSES: [Class; 17] = [
    ("apart, two slots", |s| s.of(2)),
    ("apart, three slots", |s| s.of(3)),
    ("apart, four slots", |s| s.of(4)),
    ("apart, a slot's turns with another's between them", |s| s.apart() && s.mixed()),
    ("apart, bytes that two may read", |s| s.apart() && s.judged.share(|reach| reach.read)),
    ("apart, bytes that two may execute", |s| s.apart() && s.judged.share(|reach| reach.execute)),
    ("apart, memory changed", |s| s.apart() && s.together.memory != s.set.memory),
    ("apart, a refused allowance", |s| s.apart() && s.refused()),
    ("apart, a slot stopped in a turn", |s| s.apart() && s.runs().any(|answer| answer.stop != 21)),
    ("apart, a slot left HFI mode", |s| s.apart() && s.runs().any(|answer| answer.stop == 20)),
    ("apart, all stopped in the end", |s| s.apart() && s.together.answers.last() == Some(&Answer::default())),
    ("apart, the main loop sets the place", |s| s.apart() && s.placed()),
    ("apart, a stopped slot that may write bytes of the others", |s| s.apart() && s.stopped_writer()),
    ("not apart", |s| s.controlled()),
    (DIFFERS, |s| s.controlled() && s.differing > 0),
    ("any, the main loop sets no place: fairness asked", |s| !s.placed() && s.runs().next().is_some()),
    ("any, a slot stopped while another goes on: fairness asked", |s| !s.placed() && s.runs().any(|answer| answer.stop != 21) && s.runs().last().is_some_and(|answer| answer.stop == 21)),
];

const DIFFERS: &str = "not apart, and a slot's turns alone differ";
const SLOTS_RUN: &str = "slots that are apart, each run alone";
const SLOTS_CONTROLLED: &str = "slots that are not apart, each run alone";
const SLOTS_DIFFERING: &str = "slots that are not apart and differ";
const STEPS: &str = "steps of slots that are apart";
const TURNS: &str = "turns of slots that are apart";

fn count(engine: &dyn Engine, set: &Set, judged: &Judged, plan: &[Step], together: &Taken, differing: u64, counts: &mut Counts) {
    let seen = Seen { set, judged, plan, together, differing };
    let mut more = |class: &'static str, many: u64| *counts.apart.entry((class, engine.title())).or_default() += many;
    CLASSES.iter().filter(|(_, test)| test(&seen)).for_each(|(class, _)| more(class, 1));
    let slots = judged.slots.len() as u64;
    if seen.apart() {
        more(SLOTS_RUN, slots);
        more(TURNS, seen.runs().count() as u64);
        more(STEPS, seen.runs().map(|answer| answer.count).sum());
    }
    if seen.controlled() {
        more(SLOTS_CONTROLLED, slots);
        more(SLOTS_DIFFERING, differing);
    }
}

/// What was never met by an engine that takes turns. Where slots that are not
/// apart never differ the experiment could not fail.
pub fn unmet(met: &Met) -> Vec<String> {
    let mut engines: Vec<String> = met.keys().map(|(_, engine)| engine.clone()).collect();
    engines.sort();
    engines.dedup();
    if engines.is_empty() {
        return vec!["no set of slots was run".to_string()];
    }
    let wanted = CLASSES.iter().flat_map(|(class, _)| engines.iter().map(move |engine| (*class, engine.clone())));
    wanted.filter(|key| met.get(key).is_none_or(|many| *many == 0)).map(|(class, engine)| format!("no set of {engine}: {class}")).collect()
}

pub fn print(met: &Met) {
    println!("sets of slots, all turns together and each slot's alone:");
    let mut line = String::new();
    let mut last = "";
    for ((class, engine), many) in met {
        if *class != last && !line.is_empty() {
            println!("{line}");
        }
        line = if *class == last { format!("{line}, {engine} {many}") } else { format!("  {class}: {engine} {many}") };
        last = class;
    }
    println!("{line}");
}

// ---- sets

/// How the slots of a set lie.
#[derive(Clone, Copy, Debug, PartialEq, Eq)]
pub enum Kind {
    /// Each in a block of its own; code and a table may be shared.
    Blocks,
    /// The same, and one of them may write into another's block.
    Trespass,
    /// Two of them have one block for their data.
    OneBlock,
    /// Any machines in locked HFI mode.
    Any,
}

const KINDS: [Kind; 8] =
    [Kind::Blocks, Kind::Trespass, Kind::Blocks, Kind::OneBlock, Kind::Blocks, Kind::Blocks, Kind::Any, Kind::Blocks];

/// After so many rounds each kind has come often enough for every class.
pub const APART_ROUNDS: u64 = 256;

pub fn any_set(supply: &mut Supply) -> Set {
    let kind = supply.pick(&KINDS);
    set_of(supply, kind)
}

pub fn set_of(supply: &mut Supply, kind: Kind) -> Set {
    let count = supply.pick(&[2, 2, 3, 3, 4, 4, 4, 1]);
    let mut set = match kind {
        Kind::Any => any_machines(supply),
        _ => blocks(supply, kind, count),
    };
    set.scheduler.count = count;
    set.scheduler.place = supply.below(6);
    set.scheduler.total = supply.edge();
    for n in 1..=SLOTS as u64 {
        set.scheduler.slot_mut(n).stop = supply.pick(&[0, 21]);
    }
    if supply.once_in(4) {
        stop_one(supply, &mut set);
    }
    set
}

/// A slot that is stopped from the start, whose machine may be any.
fn stop_one(supply: &mut Supply, set: &mut Set) {
    let n = 1 + supply.below(set.scheduler.count);
    let length = set.memory.len();
    let slot = set.scheduler.slot_mut(n);
    slot.stop = stopped_stop(supply);
    match supply.below(3) {
        0 => {}
        1 => slot.machine = supply.any_state(),
        _ => slot.machine.regions[3] = Region { base: supply.below(64), bound: length as u64, permission: 3 },
    }
}

fn any_machines(supply: &mut Supply) -> Set {
    let length = supply.pick(&[0, 3, 64, 100, 600, 1024]);
    let memory = supply.memory(length);
    let mut scheduler = Scheduler::default();
    for slot in &mut scheduler.slots {
        slot.machine = supply.locked_machine(length);
    }
    Set { scheduler, memory }
}

/// Four worlds in blocks of one memory, in any order, and a block of bytes that
/// nobody writes: the table. A world is one in which runs go on for a while, or
/// most often a worker's, in which they go on longer.
fn blocks(supply: &mut Supply, kind: Kind, count: u64) -> Set {
    let k = supply.pick(&[7, 7, 7, 8]);
    let workers = !supply.once_in(3);
    let size = 2u64 << k;
    let mut memory = vec![0; 5 * size as usize];
    memory.iter_mut().for_each(|byte| *byte = supply.next() as u8);
    let place = order(supply);
    let mut scheduler = Scheduler::default();
    for n in 0..SLOTS {
        let (machine, bytes) = if workers { worker(supply, k) } else { supply.locked_world_of(k) };
        // Code of the first slot, or its own; data in its own block, or with the first slot's.
        let code = if n > 0 && supply.once_in(2) { place[0] } else { place[n] } * size;
        let data = if n == 1 && kind == Kind::OneBlock { place[0] } else { place[n] } * size;
        if n == 0 || code != place[0] * size {
            memory[code as usize..code as usize + bytes.len()].copy_from_slice(&bytes);
        }
        scheduler.slots[n].machine = settled(supply, &machine, k, code, data);
    }
    if workers {
        give_table(supply, &mut scheduler, 4 * size, k);
    } else {
        share_table(supply, &mut scheduler, 4 * size, k);
    }
    if kind == Kind::Trespass {
        trespass(supply, &mut scheduler, size, &place, count);
    }
    if supply.once_in(6) {
        memory.truncate(memory.len() - supply.below(size) as usize);
    }
    Set { scheduler, memory }
}

/// Registers that a worker computes with, and one that counts its rounds.
const WORKING: [u64; 7] = [5, 6, 7, 10, 11, 14, 15];
const ROUNDS: u64 = 9;

/// A world of 2^k bytes of code and as many of data from there on: a loop that
/// loads, stores, computes and branches by what it has loaded, a number of
/// rounds, and a word that stops it. x1 and x2 point into its data, x4 and x12
/// are offsets into region 1, which has nearly all of them; x8 points to what
/// is only loaded, and so does region 4.
fn worker(supply: &mut Supply, k: u64) -> (Machine, Vec<u8>) {
    let half = 1u64 << k;
    let mut memory: Vec<u8> = (0..2 * half).map(|_| supply.next() as u8).collect();
    for (n, instruction) in worker_loop(supply).iter().enumerate() {
        memory[4 * n..4 * n + 4].copy_from_slice(&encode(instruction).expect("in range").to_le_bytes());
    }
    let mut machine = Machine { mode: 1, options: 1 | supply.below(8) << 1, reason: supply.below(3), selector: supply.below(11), ..Machine::default() };
    machine.fault = Fault { occurred: supply.below(2), region: supply.below(11), op: supply.below(4), address: supply.edge() };
    (machine.exit_pc, machine.handler) = (supply.edge(), supply.below(1 << 20) * 4);
    (5..32).for_each(|register| machine.x[register] = supply.edge());
    [1, 2, 8].into_iter().for_each(|register| machine.x[register] = half + 48 + supply.below(half - 103));
    let first = supply.below(16);
    [4, 12].into_iter().for_each(|register| machine.x[register] = 24 + supply.below(half - 16 - 55));
    machine.x[ROUNDS as usize] = if supply.once_in(3) { supply.next() } else { 1 + supply.below(5) };
    machine.regions[0] = Region { base: half + first, bound: half - 16, permission: 3 };
    machine.regions[1] = Region { base: half, bound: ALL << k, permission: 3 };
    machine.regions[2] = Region { base: 0, bound: ALL << k, permission: 4 };
    machine.regions[3] = Region { base: half, bound: 64, permission: 1 };
    (machine, memory)
}

fn worker_loop(supply: &mut Supply) -> Vec<Instruction> {
    let mut words: Vec<Instruction> = (0..8 + supply.below(12)).map(|_| work(supply)).collect();
    let back = -4 * (words.len() as i64 + 1);
    words.push(Instruction::Immediate { kind: ImmediateKind::Addi, rd: ROUNDS, rs1: ROUNDS, value: -1 });
    words.push(Instruction::Branch { kind: BranchKind::Bne, rs1: ROUNDS, rs2: 0, offset: back });
    let hfi = |kind| Instruction::Hfi { kind, rd: 0, rs1: 0, rs2: 0 };
    words.push(supply.pick(&[
        Instruction::System { kind: SystemKind::Ecall },
        Instruction::System { kind: SystemKind::Ebreak },
        hfi(HfiKind::Exit),
        hfi(HfiKind::Exit),
        hfi(HfiKind::Exit),
        hfi(HfiKind::Enter),
        hfi(HfiKind::Reset),
        Instruction::Jalr { rd: 0, rs1: 1, offset: 0 },
        Instruction::Store { kind: STORE_TABLE[0].0, rs1: 3, rs2: 5, offset: 0 },
    ]));
    words
}

/// A word of a worker that does not stop it.
fn work(supply: &mut Supply) -> Instruction {
    let (rd, rs1, rs2) = (supply.pick(&WORKING), supply.pick(&WORKING), supply.pick(&WORKING));
    let near = supply.below(96) as i64 - 48;
    let inside = supply.below(48) as i64 - 24;
    match supply.below(16) {
        0..=2 => Instruction::Register { kind: supply.pick(&REGISTER_TABLE).0, rd, rs1, rs2 },
        3 => Instruction::Immediate { kind: supply.pick(&IMMEDIATE_TABLE).0, rd, rs1, value: near },
        4 => Instruction::Shift { kind: supply.pick(&SHIFT_TABLE).0, rd, rs1, amount: supply.below(32) },
        5 | 6 => Instruction::Load { kind: supply.pick(&LOAD_TABLE).0, rd, rs1: supply.pick(&[1, 2, 8, 8]), offset: near },
        7..=9 => Instruction::Store { kind: supply.pick(&STORE_TABLE).0, rs1: supply.pick(&[1, 2]), rs2, offset: near },
        10 => Instruction::HLoad { kind: supply.pick(&LOAD_TABLE).0, region: 4, rd, rs1: 0, offset: supply.below(57) as i64 },
        11 => Instruction::HLoad { kind: supply.pick(&LOAD_TABLE).0, region: 1, rd, rs1: supply.pick(&[4, 12]), offset: inside },
        12 | 13 => Instruction::HStore { kind: supply.pick(&STORE_TABLE).0, region: 1, rs1: supply.pick(&[4, 12]), rs2, offset: inside },
        _ => Instruction::Branch { kind: supply.pick(&BRANCH_TABLE).0, rs1, rs2, offset: 8 },
    }
}

/// Most workers read the table through region 4, some also by x8.
fn give_table(supply: &mut Supply, scheduler: &mut Scheduler, table: u64, k: u64) {
    for slot in &mut scheduler.slots {
        if !supply.once_in(4) {
            slot.machine.regions[3] = Region { base: table + supply.below(32), bound: 64 + supply.below(64), permission: 1 };
        }
        if supply.once_in(3) {
            slot.machine.regions[supply.pick(&[6, 7, 8])] = Region { base: table, bound: ALL << k, permission: 1 };
            slot.machine.x[8] = table + 48 + supply.below((1 << k) - 103);
        }
    }
}

/// The places of the four blocks, in any order.
fn order(supply: &mut Supply) -> [u64; SLOTS] {
    let mut places = [0, 1, 2, 3];
    for n in (1..SLOTS).rev() {
        places.swap(n, supply.below(n as u64 + 1) as usize);
    }
    places
}

/// A machine whose world lay at 0, with its code moved to one place and its
/// data to another. Regions that lie elsewhere are brought there or taken away.
fn settled(supply: &mut Supply, machine: &Machine, k: u64, code: u64, data: u64) -> Machine {
    let mut moved = *machine;
    for number in 1..=REGIONS {
        let by = if region_kind(number) == RegionKind::ImplicitCode { code } else { data };
        moved.regions[number - 1].base = add(machine.regions[number - 1].base, by);
        confine(supply, &mut moved, number, by, 2 << k);
    }
    for register in [1, 2, 8] {
        moved.x[register] = add(machine.x[register], data);
    }
    moved.x[3] = add(machine.x[3], code);
    moved.pc = add(machine.pc, code);
    bar_code(&mut moved);
    moved
}

/// A region that keeps its rule and does not lie in the block of `size` bytes
/// from `start` on: an explicit one gets other bytes, one of the others none.
fn confine(supply: &mut Supply, machine: &mut Machine, number: usize, start: u64, size: u64) {
    let region = machine.regions[number - 1];
    let Some(own) = extent(region_kind(number), &region) else { return };
    if own.start >= start as u128 && own.end <= (start + size) as u128 {
        return;
    }
    let first = supply.below(size);
    machine.regions[number - 1] = match region_kind(number) {
        RegionKind::Explicit => Region { base: start + first, bound: 1 + supply.below(size - first), permission: region.permission & 3 },
        _ => Region::default(),
    };
}

/// Where code is writable, no explicit or data region that has code may write.
fn bar_code(machine: &mut Machine) {
    if !code_is_writable(machine) {
        return;
    }
    let code = executable_intervals(machine);
    for number in EXPLICIT.into_iter().chain(IMPLICIT_DATA) {
        let own = extent(region_kind(number), &machine.regions[number - 1]);
        if own.is_some_and(|own| code.iter().any(|other| own.meet(*other).is_some())) {
            machine.regions[number - 1].permission &= !(1 << WRITE);
        }
    }
}

/// Most slots may read the table, through an explicit or a data region; now and
/// then also the code of the first slot.
fn share_table(supply: &mut Supply, scheduler: &mut Scheduler, table: u64, k: u64) {
    let code = executable_intervals(&scheduler.slots[0].machine).first().copied();
    for slot in &mut scheduler.slots {
        match supply.below(4) {
            0 => {}
            1 => slot.machine.regions[supply.pick(&IMPLICIT_DATA) - 1] = Region { base: table, bound: ALL << k, permission: 1 },
            _ => {
                let (first, more) = (supply.below(40), supply.below(1 << k));
                slot.machine.regions[supply.pick(&EXPLICIT) - 1] = Region { base: table + first, bound: 64 + more, permission: 1 };
            }
        }
        if let (Some(code), true) = (code, supply.once_in(4)) {
            let bound = (code.end - code.start) as u64;
            slot.machine.regions[supply.pick(&EXPLICIT) - 1] = Region { base: code.start as u64, bound, permission: 1 };
        }
        bar_code(&mut slot.machine);
    }
}

/// One slot may write half of the next one's block through its explicit
/// regions: its data, or what may be code, if it is not its own.
fn trespass(supply: &mut Supply, scheduler: &mut Scheduler, size: u64, place: &[u64; SLOTS], count: u64) {
    let one = supply.below(count);
    let other = place[((one + 1) % count) as usize];
    let half = supply.pick(&[size / 2, size / 2, size / 2, 0]);
    let machine = &mut scheduler.slots[one as usize].machine;
    let wanted = Region { base: other * size + half, bound: size / 2, permission: 3 };
    EXPLICIT.iter().for_each(|number| machine.regions[number - 1] = wanted);
    bar_code(machine);
}

/// Some turns: allowances mostly small, some refused; in one plan of four the
/// main loop sets the place now and then.
fn any_plan(supply: &mut Supply) -> Vec<Step> {
    let places = supply.once_in(4);
    let one = |supply: &mut Supply| Step {
        place: if places && supply.once_in(3) { Some(supply.below(6)) } else { None },
        allowance: match supply.below(12) {
            0 => 0,
            1 => any_allowance(supply),
            _ => 1 + supply.below(24),
        },
    };
    let many = 4 + supply.below(16);
    (0..many).map(|_| one(supply)).collect()
}

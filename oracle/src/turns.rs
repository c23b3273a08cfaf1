//! Turns (document 02, Job 9) of two engines over one memory, aimed and random.
//! The aimed ones have their answer by Job 9: whose turn it is for each count,
//! place and set of stopped slots, each stop of a run, each refusal by itself,
//! before each later one, and in a slot that is not asked. The document's deck
//! is a slot here.

use std::collections::BTreeMap;

use crate::apart;
use crate::compare::{first_byte_apart, show, Counts, Engine};
use crate::instruction::{encode, HfiKind, ImmediateKind, Instruction, LoadKind, StoreKind, SystemKind};
use crate::machine::{well_formed, Fault, Machine, Region, EXPLICIT};
use crate::scheduler::{machine_refusal, Answer, Scheduler, Slot, ALLOWANCE_LIMIT, SLOTS};
use crate::step::MEMORY_LIMIT;
use crate::supply::Supply;

const ALL: u64 = u64::MAX;

/// How many turns of each kind were met.
pub type Met = BTreeMap<String, u64>;

/// Of the aims a round has one part in so many; so many rounds have had all.
pub const TURN_ROUNDS: u64 = 16;

/// What one round has: its part of the aims, and random turns.
pub fn compare(left: &dyn Engine, right: &dyn Engine, supply: &mut Supply, round: u64, counts: &mut Counts) {
    let part = round % TURN_ROUNDS;
    for (n, order) in orders().into_iter().enumerate().filter(|(n, _)| *n as u64 % TURN_ROUNDS == part) {
        // The ends go by the round too, so in time each order has each of them.
        let end = ENDS[(n + (round / TURN_ROUNDS) as usize) % ENDS.len()];
        aimed_order(left, right, supply, order, end, counts);
    }
    if part == 0 {
        aimed_order(left, right, supply, LONGEST, End::Loop, counts);
    }
    for (_, aim) in refusals(false).into_iter().enumerate().filter(|(n, _)| *n as u64 % TURN_ROUNDS == part) {
        let length = if aim.told() == 0 { 0 } else { supply.length() };
        aimed_refusal(left, right, supply, aim, &mut vec![0; length], counts);
    }
    sequence(left, right, supply, counts);
}

/// Turns over a memory about the longest: each refusal with 1, or a turn.
pub fn long(left: &dyn Engine, right: &dyn Engine, supply: &mut Supply, memory: &mut Vec<u8>, counts: &mut Counts) {
    if memory.len() > MEMORY_LIMIT {
        for aim in refusals(true) {
            aimed_refusal(left, right, supply, aim, memory, counts);
        }
    } else {
        let mut scheduler = Scheduler::of(&[good_machine(supply, memory.len()), good_machine(supply, memory.len())]);
        for _ in 0..2 {
            compare_turn(left, right, &mut scheduler, memory, 10, counts);
        }
    }
}

// ---- one turn of both

/// One turn of both engines; the left one is the measure, and what it leaves
/// is what the next turn has.
pub fn compare_turn(
    left: &dyn Engine,
    right: &dyn Engine,
    scheduler: &mut Scheduler,
    memory: &mut Vec<u8>,
    allowance: u64,
    counts: &mut Counts,
) -> Answer {
    let before = *scheduler;
    let (mut other, mut bytes) = (*scheduler, memory.clone());
    let a = left.turn(scheduler, memory, allowance).expect("the measure takes turns");
    count(&Seen { before: &before, after: scheduler, length: memory.len(), allowance, answer: a }, &mut counts.turns);
    if let Some(b) = right.turn(&mut other, &mut bytes, allowance) {
        counts.compared += 1;
        if a != b || *scheduler != other || *memory != bytes {
            counts.difference(format!(
                "turn of {allowance}, length {}\n  before {}\n  {} {a:?}\n  {} {b:?}\n  fields apart: {}\n  first byte apart {:?}",
                memory.len(),
                show_scheduler(&before),
                left.title(),
                right.title(),
                fields_apart(scheduler, &other).join("; "),
                first_byte_apart(memory, &bytes)
            ));
        }
    }
    a
}

/// A machine put into slot n by both engines. Answers what the left one does.
pub fn compare_put(
    left: &dyn Engine,
    right: &dyn Engine,
    scheduler: &mut Scheduler,
    n: u64,
    machine: &Machine,
    counts: &mut Counts,
) -> bool {
    let mut other = *scheduler;
    let a = left.put(scheduler, n, machine).expect("the measure puts");
    let class = if a { format!("put into slot {n}") } else { "put where there is no slot".to_string() };
    *counts.turns.entry(class).or_default() += 1;
    if let Some(b) = right.put(&mut other, n, machine) {
        counts.compared += 1;
        if a != b || *scheduler != other {
            let apart = fields_apart(scheduler, &other).join("; ");
            counts.difference(format!("put into slot {n}: {a}, {b}; fields apart: {apart}"));
        }
    }
    a
}

pub fn show_scheduler(scheduler: &Scheduler) -> String {
    let slots: Vec<String> = scheduler.slots.iter().map(|slot| format!("[stop {:x}: {}]", slot.stop, show(&slot.machine))).collect();
    format!("count {:x} place {:x} total {:x}\n    {}", scheduler.count, scheduler.place, scheduler.total, slots.join("\n    "))
}

/// The fields of two schedulers that differ.
pub fn fields_apart(a: &Scheduler, b: &Scheduler) -> Vec<String> {
    let mut apart = Vec::new();
    for (name, one, two) in [("count", a.count, b.count), ("place", a.place, b.place), ("total", a.total, b.total)] {
        if one != two {
            apart.push(format!("{name} {one:x}, {two:x}"));
        }
    }
    for (n, (one, two)) in a.slots.iter().zip(&b.slots).enumerate() {
        if one.stop != two.stop {
            apart.push(format!("stop of slot {} {:x}, {:x}", n + 1, one.stop, two.stop));
        }
        if one.machine != two.machine {
            apart.push(format!("machine of slot {}\n    {}\n    {}", n + 1, show(&one.machine), show(&two.machine)));
        }
    }
    apart
}

// ---- what was met

/// A turn: what it was given, what the measure answered and left.
struct Seen<'a> {
    before: &'a Scheduler,
    after: &'a Scheduler,
    length: usize,
    allowance: u64,
    answer: Answer,
}

impl Seen<'_> {
    /// A run was made.
    fn ran(&self) -> bool {
        self.answer.slot != 0
    }

    fn refused(&self, number: u64) -> bool {
        !self.ran() && self.answer.stop == number
    }

    fn all_stopped(&self) -> bool {
        self.refused(0)
    }

    fn outside(&self) -> bool {
        self.before.place < 1 || self.before.place > self.before.count
    }

    /// The slots that take turns.
    fn within(&self) -> &[Slot] {
        &self.before.slots[..self.before.count.min(SLOTS as u64) as usize]
    }

    fn past(&self) -> &[Slot] {
        &self.before.slots[self.before.count.min(SLOTS as u64) as usize..]
    }

    /// A stopped slot that would be refused so did not keep another from its turn.
    fn left_out(&self, number: u64) -> bool {
        self.ran() && self.within().iter().any(|slot| slot.stopped() && machine_refusal(&slot.machine) == number)
    }

    fn not_counted(&self, number: u64) -> bool {
        self.ran() && self.past().iter().any(|slot| !slot.stopped() && machine_refusal(&slot.machine) == number)
    }

    /// Refused for a machine whose turn it was not.
    fn for_another(&self) -> bool {
        let order = Order { count: self.before.count, place: self.before.place, stopped: 0 };
        let own = || order.round().into_iter().map(|n| self.before.slot(n)).find(|slot| !slot.stopped());
        [3, 4, 52].contains(&self.answer.stop) && !self.ran() && own().is_some_and(|slot| machine_refusal(&slot.machine) == 0)
    }

    /// What the slot had before its turn.
    fn own(&self) -> Option<&Slot> {
        self.ran().then(|| self.before.slot(self.answer.slot))
    }
}

type Class = (&'static str, fn(&Seen) -> bool);

/// What a turn can be besides what it answers.
const CLASSES: [Class; 38] = [
    ("all slots stopped", |s| s.all_stopped()),
    ("all slots stopped, the place outside the count", |s| s.all_stopped() && s.outside()),
    ("all slots stopped, a total", |s| s.all_stopped() && s.before.total != 0),
    ("place 0, a run", |s| s.ran() && s.before.place == 0),
    ("place past the count, a run", |s| s.ran() && s.before.place > s.before.count),
    ("place 2^32 or more, its low half in the count, a run", |s| s.ran() && s.before.place >> 32 != 0 && (s.before.place as u32 as u64) <= s.before.count),
    ("the slot at the place, a run", |s| s.ran() && s.answer.slot == s.before.place_taken()),
    ("stopped slots passed over", |s| s.ran() && s.answer.slot > s.before.place_taken()),
    ("stopped slots passed over, round to the first", |s| s.ran() && s.answer.slot < s.before.place_taken()),
    ("the place goes on", |s| s.ran() && s.after.place > 1),
    ("the place goes round to 1", |s| s.ran() && s.before.count > 1 && s.after.place == 1),
    ("one slot, the place stays 1", |s| s.ran() && s.before.count == 1 && s.after.place == 1),
    ("the total wraps", |s| s.ran() && s.after.total < s.before.total),
    ("the total wraps to 0", |s| s.ran() && s.after.total == 0 && s.before.total != 0),
    ("the total becomes 2^64 - 1", |s| s.ran() && s.after.total == ALL && s.before.total != ALL),
    ("a run of no step", |s| s.ran() && s.answer.count == 0),
    ("a run of 10,000 steps", |s| s.ran() && s.answer.count == ALLOWANCE_LIMIT),
    ("allowance 1, a run", |s| s.ran() && s.allowance == 1),
    ("allowance 0, refused", |s| s.refused(51) && s.allowance == 0),
    ("allowance 10,001, refused", |s| s.refused(51) && s.allowance == ALLOWANCE_LIMIT + 1),
    ("allowance 2^32 or more, its low half good, refused", |s| s.refused(51) && (1..=ALLOWANCE_LIMIT).contains(&(s.allowance as u32 as u64))),
    ("count 0, refused", |s| s.refused(50) && s.before.count == 0),
    ("count 5, refused", |s| s.refused(50) && s.before.count == 5),
    ("count 2^32 or more, its low half good, refused", |s| s.refused(50) && (1..=4).contains(&(s.before.count as u32))),
    ("refused for a machine whose turn it was not", |s| s.for_another()),
    ("a stopped slot that 3 would refuse, a run", |s| s.left_out(3)),
    ("a stopped slot that 4 would refuse, a run", |s| s.left_out(4)),
    ("a stopped slot that 52 would refuse, a run", |s| s.left_out(52)),
    ("a slot past the count that 3 would refuse, a run", |s| s.not_counted(3)),
    ("a slot past the count that 4 would refuse, a run", |s| s.not_counted(4)),
    ("a slot past the count that 52 would refuse, a run", |s| s.not_counted(52)),
    ("a slot that stopped with 20, a run", |s| s.ran() && s.within().iter().any(|slot| slot.stop == 20)),
    ("a slot that stopped with 2^32 + 21, a run", |s| s.ran() && s.within().iter().any(|slot| slot.stop == (1 << 32) + 21)),
    ("the first turn of a slot", |s| s.own().is_some_and(|slot| slot.stop == 0)),
    ("a later turn of a slot", |s| s.own().is_some_and(|slot| slot.stop == 21)),
    ("four slots, a run of the fourth", |s| s.before.count == 4 && s.answer.slot == 4),
    ("no memory, a run", |s| s.ran() && s.length == 0),
    ("memory of 16,777,216 bytes, a run", |s| s.ran() && s.length == MEMORY_LIMIT),
];

/// A machine put into a stopped slot, and then that slot's turn.
const AWAKE: &str = "a stopped slot's turn after a machine was put there";

fn count(seen: &Seen, met: &mut Met) {
    let kind = match (seen.ran(), seen.answer.stop) {
        (true, stop) => format!("a run's stop {stop}"),
        (false, 0) => "nothing".to_string(),
        (false, number) => format!("refusal {number}"),
    };
    *met.entry(kind).or_default() += 1;
    for (class, _) in CLASSES.iter().filter(|(_, test)| test(seen)) {
        *met.entry(class.to_string()).or_default() += 1;
    }
}

/// The stops of a run that began in locked HFI mode: 14, 15, 22 and 24 cannot
/// come, as 23, 25 and 20 are before them.
pub const RUN_STOPS: [u64; 12] = [10, 11, 12, 13, 16, 17, 18, 19, 20, 21, 23, 25];

pub const REFUSALS: [u64; 6] = [1, 50, 51, 3, 4, 52];

/// What was never met.
pub fn unmet(met: &Met) -> Vec<String> {
    let stops = RUN_STOPS.map(|stop| format!("a run's stop {stop}"));
    let numbers = REFUSALS.map(|number| format!("refusal {number}"));
    let puts = (1..=SLOTS).map(|n| format!("put into slot {n}")).chain(["put where there is no slot".to_string(), AWAKE.to_string()]);
    let classes = CLASSES.iter().map(|(class, _)| class.to_string());
    let wanted = stops.into_iter().chain(numbers).chain(puts).chain(classes);
    wanted.filter(|class| !met.contains_key(class)).map(|class| format!("no turn of: {class}")).collect()
}

pub fn print(met: &Met) {
    println!("turns of several machines:");
    for (class, count) in met {
        println!("  {class}: {count}");
    }
}

// ---- aimed: whose turn it is, and how its run ends

/// How many slots, the place, and which are stopped: bit n - 1 for slot n.
#[derive(Clone, Copy, Debug, PartialEq, Eq)]
pub struct Order {
    pub count: u64,
    pub place: u64,
    pub stopped: u64,
}

/// The one whose turn, where it comes to its allowance, is of 10,000 steps.
const LONGEST: Order = Order { count: 3, place: 3, stopped: 0 };

/// Each count with each place in it and some outside, and each set of stopped
/// slots.
pub fn orders() -> Vec<Order> {
    let mut all = Vec::new();
    for count in 1..=SLOTS as u64 {
        for place in (0..=count + 1).chain([ALL, (1 << 32) + count]) {
            all.extend((0..1 << count).map(|stopped| Order { count, place, stopped }));
        }
    }
    all
}

impl Order {
    fn stops(self, n: u64) -> bool {
        self.stopped >> (n - 1) & 1 == 1
    }

    /// The slots going up from the place, and after the last one on from 1.
    fn round(self) -> Vec<u64> {
        let place = if self.place >= 1 && self.place <= self.count { self.place } else { 1 };
        (0..self.count).map(|n| (place - 1 + n) % self.count + 1).collect()
    }

    /// Whose turn it is: the first that is not stopped.
    fn told(self) -> Option<u64> {
        self.round().into_iter().find(|n| !self.stops(*n))
    }
}

/// How an aimed run ends: the stop, and what brings it about.
#[derive(Clone, Copy, Debug)]
enum End {
    /// pc is odd.
    Odd,
    /// A jump to this address, then what its fetch gives.
    Jump(u64, u64),
    /// An ordinary load or store of a byte at this address.
    Load(u64),
    Store(u64),
    Word(u64, Instruction),
    /// No word.
    Zero,
    /// A jump to itself.
    Loop,
}

/// Aimed slots have 64 bytes of code each from 0 on, and 64 bytes of data each
/// from 256 on. Regions 7 and 10 grant 64 bytes of data and of code that are
/// not in memory.
const LENGTH: u64 = 512;
const ABSENT_DATA: u64 = LENGTH;
const ABSENT_CODE: u64 = LENGTH + 64;

const fn hfi(kind: HfiKind) -> Instruction {
    Instruction::Hfi { kind, rd: 0, rs1: 0, rs2: 0 }
}

const ECALL: Instruction = Instruction::System { kind: SystemKind::Ecall };

const ENDS: [End; 13] = [
    End::Odd,
    End::Jump(11, LENGTH - 64),
    End::Jump(12, ABSENT_CODE),
    End::Zero,
    End::Store(0),
    End::Load(ABSENT_DATA),
    End::Word(18, ECALL),
    End::Word(19, Instruction::System { kind: SystemKind::Ebreak }),
    End::Word(20, hfi(HfiKind::Exit)),
    End::Word(20, ECALL),
    End::Loop,
    End::Word(23, hfi(HfiKind::Enter)),
    End::Word(25, hfi(HfiKind::Reset)),
];

impl End {
    fn stop(self) -> u64 {
        match self {
            End::Odd => 10,
            End::Jump(stop, _) | End::Word(stop, _) => stop,
            End::Zero => 13,
            End::Store(_) => 16,
            End::Load(_) => 17,
            End::Loop => 21,
        }
    }

    /// The address given with the stop: of 12 and 17 the first absent one.
    fn address(self) -> u64 {
        match self {
            End::Jump(12, address) | End::Load(address) => address,
            _ => 0,
        }
    }

    /// The steps that it completes itself.
    fn own_steps(self) -> u64 {
        match self {
            End::Jump(..) => 1,
            _ if self.stop() == 20 => 1,
            _ => 0,
        }
    }

    fn word(self) -> u32 {
        let instruction = match self {
            End::Zero | End::Odd => return 0,
            End::Jump(..) => Instruction::Jalr { rd: 0, rs1: 6, offset: 0 },
            End::Load(_) => Instruction::Load { kind: LoadKind::Byte, rd: 7, rs1: 6, offset: 0 },
            End::Store(_) => Instruction::Store { kind: StoreKind::Byte, rs1: 6, rs2: 5, offset: 0 },
            End::Word(_, instruction) => instruction,
            End::Loop => Instruction::Jal { rd: 0, offset: 0 },
        };
        encode(&instruction).expect("in range")
    }

    /// What x6 holds.
    fn operand(self) -> u64 {
        match self {
            End::Jump(_, address) | End::Load(address) | End::Store(address) => address,
            _ => 0,
        }
    }
}

/// What one run has before its end: so many words that add 1 to x5.
const MOST_BEFORE: u64 = 6;

/// Puts the program of slot n into memory.
fn write_program(memory: &mut [u8], n: u64, before: u64, end: End) {
    let add = encode(&Instruction::Immediate { kind: ImmediateKind::Addi, rd: 5, rs1: 5, value: 1 }).expect("in range");
    for i in 0..=before {
        let at = (64 * (n - 1) + 4 * i) as usize;
        let word = if i < before { add } else { end.word() };
        memory[at..at + 4].copy_from_slice(&word.to_le_bytes());
    }
}

/// The machine of an aimed slot n.
fn aimed_machine(supply: &mut Supply, n: u64, end: End) -> Machine {
    let block = |base: u64, permission: u64| Region { base, bound: ALL << 6, permission };
    let mut machine = Machine { mode: 1, options: 1 | supply.pick(&[0, 4, 8]), reason: supply.below(3), ..Machine::default() };
    (7..32).for_each(|register| machine.x[register] = supply.edge());
    machine.x[6] = end.operand();
    machine.pc = 64 * (n - 1) + matches!(end, End::Odd) as u64;
    if matches!(end, End::Word(20, ECALL)) {
        machine.options |= 2;
    }
    machine.regions[1] = block(256 + 64 * (n - 1), 3);
    machine.regions[2] = block(64 * (n - 1), 4);
    machine.regions[6] = block(ABSENT_DATA, 3);
    machine.regions[9] = block(ABSENT_CODE, 4);
    machine.fault = Fault { occurred: supply.below(2), region: supply.below(11), op: supply.below(4), address: supply.edge() };
    machine
}

/// Four aimed slots, each with the same end, over one memory.
fn aimed_slots(supply: &mut Supply, before: u64, end: End) -> (Scheduler, Vec<u8>) {
    let mut memory: Vec<u8> = (0..LENGTH).map(|_| supply.next() as u8).collect();
    let machines: Vec<Machine> = (1..=SLOTS as u64)
        .map(|n| {
            write_program(&mut memory, n, before, end);
            aimed_machine(supply, n, end)
        })
        .collect();
    let mut scheduler = Scheduler::of(&machines);
    scheduler.total = any_total(supply);
    scheduler.slots.iter_mut().for_each(|slot| slot.stop = supply.pick(&[0, 21]));
    (scheduler, memory)
}

/// Any stop of a stopped slot.
pub fn stopped_stop(supply: &mut Supply) -> u64 {
    supply.pick(&[20, 20, 10, 11, 12, 13, 16, 17, 18, 19, 23, 25, 1, 2, 3, 4, 22, 50, 51, 52, 1 << 32, (1 << 32) + 21, ALL])
}

/// A total, often one that the turn takes to 2^64 or past it.
fn any_total(supply: &mut Supply) -> u64 {
    match supply.below(4) {
        0 => 0,
        1 => supply.edge(),
        _ => ALL - supply.below(12),
    }
}

fn aimed_order(left: &dyn Engine, right: &dyn Engine, supply: &mut Supply, order: Order, end: End, counts: &mut Counts) {
    let before = if matches!(end, End::Odd) { 0 } else { supply.below(MOST_BEFORE + 1) };
    let (mut scheduler, mut memory) = aimed_slots(supply, before, end);
    (scheduler.count, scheduler.place) = (order.count, order.place);
    for n in (1..=order.count).filter(|n| order.stops(*n)) {
        spoil_stopped(supply, scheduler.slot_mut(n), n);
    }
    for n in order.count + 1..=SLOTS as u64 {
        spoil_any(supply, scheduler.slot_mut(n), n);
    }
    let (allowance, steps) = aimed_allowance(supply, order, before, end);
    // The total then goes just to 2^64 - 1, to 0 or to 1.
    if supply.once_in(4) {
        scheduler.total = steps.wrapping_neg().wrapping_add(supply.below(3)).wrapping_sub(1);
    }
    let told = match order.told() {
        None => Answer::default(),
        Some(slot) => Answer { slot, stop: end.stop(), count: steps, address: end.address() },
    };
    told_turn(left, right, &mut scheduler, &mut memory, allowance, told, counts);
    if told.slot == 0 {
        aimed_put(left, right, supply, &mut scheduler, &mut memory, counts);
    }
}

/// With all slots stopped a machine is put where there is no slot, and then
/// into one of those that take turns: the next turn is that slot's.
fn aimed_put(left: &dyn Engine, right: &dyn Engine, supply: &mut Supply, scheduler: &mut Scheduler, memory: &mut Vec<u8>, counts: &mut Counts) {
    let (before, n) = (*scheduler, 1 + supply.below(scheduler.count));
    let machine = aimed_machine(supply, n, End::Odd);
    let nowhere = supply.pick(&[0, 5, ALL]);
    if compare_put(left, right, scheduler, nowhere, &machine, counts) || *scheduler != before {
        counts.difference(format!("a machine is put into slot {nowhere}"));
    }
    let mut told = before;
    told.slots[n as usize - 1] = Slot { machine, stop: 0 };
    if !compare_put(left, right, scheduler, n, &machine, counts) || *scheduler != told {
        counts.difference(format!("a machine is not put into slot {n} alone"));
    }
    told_turn(left, right, scheduler, memory, 1, Answer { slot: n, stop: 10, ..Answer::default() }, counts);
    *counts.turns.entry(AWAKE.to_string()).or_default() += 1;
}

/// An allowance that brings the run to its end, and the steps that it makes.
fn aimed_allowance(supply: &mut Supply, order: Order, before: u64, end: End) -> (u64, u64) {
    if matches!(end, End::Loop) {
        let allowance = if order == LONGEST { ALLOWANCE_LIMIT } else { before + 1 + supply.below(8) };
        return (allowance, allowance);
    }
    let steps = before + end.own_steps();
    // Every stop but 20 comes in a step that is not completed, for which the budget must have one left.
    let least = if end.stop() == 20 { steps } else { steps + 1 };
    (if supply.once_in(4) { ALLOWANCE_LIMIT - supply.below(2) } else { least + supply.below(3) }, steps)
}

/// A stopped slot: its machine may be as before, or one that is refused where
/// it is asked.
fn spoil_stopped(supply: &mut Supply, slot: &mut Slot, n: u64) {
    slot.stop = stopped_stop(supply);
    spoil_any(supply, slot, n);
}

fn spoil_any(supply: &mut Supply, slot: &mut Slot, n: u64) {
    if let Some(number) = supply.pick(&[None, Some(3), Some(4), Some(52)]) {
        make_refused(supply, &mut slot.machine, n, number);
    }
}

/// A turn that must be answered so.
fn told_turn(
    left: &dyn Engine,
    right: &dyn Engine,
    scheduler: &mut Scheduler,
    memory: &mut Vec<u8>,
    allowance: u64,
    told: Answer,
    counts: &mut Counts,
) {
    let (before, bytes) = (*scheduler, memory.clone());
    let answer = compare_turn(left, right, scheduler, memory, allowance, counts);
    let good = answer == told
        && match told.slot {
            0 => *scheduler == before && *memory == bytes,
            n => as_told(&before, scheduler, n, told),
        };
    if !good {
        counts.difference(format!("a turn of {allowance} that must be {told:?} is {answer:?}\n  before {}\n  after {}", show_scheduler(&before), show_scheduler(scheduler)));
    }
}

/// Has only slot n changed, and have place and total what its turn gives them?
fn as_told(before: &Scheduler, after: &Scheduler, n: u64, told: Answer) -> bool {
    let others = (1..=SLOTS as u64).filter(|other| *other != n).all(|other| after.slot(other) == before.slot(other));
    let place = if n + 1 > before.count { 1 } else { n + 1 };
    let total = (before.total as u128 + told.count as u128) % (1 << 64);
    let machine = &after.slot(n).machine;
    let left = machine.mode == if told.stop == 20 { 0 } else { 1 };
    let recorded = ![11, 16].contains(&told.stop) || machine.fault.occurred == 1;
    others && after.slot(n).stop == told.stop && left && recorded && after.place == place && after.total as u128 == total && after.count == before.count
}

// ---- aimed: refusals

/// Counts and allowances that are refused.
const BAD_COUNTS: [u64; 8] = [0, 5, (1 << 32) + 1, 6, ALL, (1 << 32) + 4, 1 << 63, 1 << 32];
const BAD_ALLOWANCES: [u64; 8] = [0, ALLOWANCE_LIMIT + 1, (1 << 32) + 1, ALL, 1_000_000, (1 << 32) + ALLOWANCE_LIMIT, 1_000_001, 1 << 63];

/// What can be refused.
#[derive(Clone, Copy, Debug, PartialEq, Eq)]
pub enum Bad {
    Memory,
    Count(u64),
    Allowance(u64),
    /// The machine of this slot, with 3, 4 or 52.
    Machine(u64, u64),
}

impl Bad {
    fn number(self) -> u64 {
        match self {
            Bad::Memory => 1,
            Bad::Count(_) => 50,
            Bad::Allowance(_) => 51,
            Bad::Machine(_, number) => number,
        }
    }

    fn slot(self) -> Option<u64> {
        match self {
            Bad::Machine(n, _) => Some(n),
            _ => None,
        }
    }

    /// The same with another bad count or allowance, going by a number.
    fn varied(self, by: usize) -> Bad {
        match self {
            Bad::Count(_) => Bad::Count(BAD_COUNTS[by % BAD_COUNTS.len()]),
            Bad::Allowance(_) => Bad::Allowance(BAD_ALLOWANCES[by % BAD_ALLOWANCES.len()]),
            other => other,
        }
    }
}

/// One or two things that would be refused, in the document's order; the first
/// of them may be a machine that is not asked.
#[derive(Clone, Copy, Debug)]
pub struct Refusal {
    pub first: Bad,
    pub second: Option<Bad>,
    pub asked: bool,
}

impl Refusal {
    /// The number told; 0 if nothing is refused.
    pub fn told(self) -> u64 {
        match (self.asked, self.second) {
            (true, _) => self.first.number(),
            (false, Some(second)) => second.number(),
            (false, None) => 0,
        }
    }
}

/// "the order is 1, 50, 51, then deck by deck from 1, stopped ones left out,
/// 3, 4, 52"
fn in_order() -> Vec<Bad> {
    let machines = (1..=SLOTS as u64).flat_map(|n| [3, 4, 52].map(|number| Bad::Machine(n, number)));
    [Bad::Memory, Bad::Count(0), Bad::Allowance(0)].into_iter().chain(machines).collect()
}

/// All of them that have 1, or all that have not.
pub fn refusals(long: bool) -> Vec<Refusal> {
    let bad = in_order();
    let mut all = Vec::new();
    for (place, first) in bad.iter().copied().enumerate().filter(|(_, bad)| (*bad == Bad::Memory) == long) {
        let values = if matches!(first, Bad::Count(_) | Bad::Allowance(_)) { BAD_COUNTS.len() } else { 1 };
        all.extend((0..values).map(|by| Refusal { first: first.varied(by), second: None, asked: true }));
        if first.slot().is_some() {
            all.push(Refusal { first, second: None, asked: false });
        }
        for second in bad[place + 1..].iter().copied().filter(|second| together(first, *second)) {
            let by = all.len();
            let (first, second) = (first.varied(by), second.varied(by / 8));
            all.push(Refusal { first, second: Some(second), asked: true });
            if first.slot().is_some() && second.slot() != first.slot() {
                all.push(Refusal { first, second: Some(second), asked: false });
            }
        }
    }
    all
}

/// 4 is of locked HFI mode alone, so no machine has 4 and 52.
fn together(first: Bad, second: Bad) -> bool {
    !matches!((first, second), (Bad::Machine(n, 4), Bad::Machine(m, 52)) if n == m)
}

fn aimed_refusal(left: &dyn Engine, right: &dyn Engine, supply: &mut Supply, aim: Refusal, memory: &mut Vec<u8>, counts: &mut Counts) {
    let (mut scheduler, _) = aimed_slots(supply, 0, End::Odd);
    give_slots(supply, aim, &mut scheduler);
    let mut allowance = 1 + supply.below(20);
    // The later one first: 3 may break what the other has changed.
    for bad in aim.second.into_iter().chain([aim.first]) {
        plant(supply, &mut scheduler, &mut allowance, bad);
    }
    let told = match aim.told() {
        0 => None,
        number => Some(Answer { stop: number, ..Answer::default() }),
    };
    match told {
        Some(told) => told_turn(left, right, &mut scheduler, memory, allowance, told, counts),
        None => not_refused(left, right, &mut scheduler, memory, allowance, counts),
    }
}

/// Every slot that is asked runs into 10, so a turn is that or nothing.
fn not_refused(left: &dyn Engine, right: &dyn Engine, scheduler: &mut Scheduler, memory: &mut Vec<u8>, allowance: u64, counts: &mut Counts) {
    let slots = &scheduler.slots[..scheduler.count as usize];
    let told = if slots.iter().all(|slot| slot.stopped()) { (0, 0) } else { (10, 0) };
    let answer = compare_turn(left, right, scheduler, memory, allowance, counts);
    if (answer.stop, answer.count) != told {
        counts.difference(format!("a turn that asks no bad machine is {answer:?}"));
    }
}

/// A count, a place and stopped slots, such that what the aim says is asked is
/// asked, and what it says is not is stopped or past the count.
fn give_slots(supply: &mut Supply, aim: Refusal, scheduler: &mut Scheduler) {
    let asked = [aim.first.slot().filter(|_| aim.asked), aim.second.and_then(Bad::slot)];
    let unasked = aim.first.slot().filter(|_| !aim.asked);
    let least = asked.into_iter().flatten().max().unwrap_or(1);
    scheduler.count = least + supply.below(SLOTS as u64 + 1 - least);
    scheduler.place = supply.pick(&[0, 1, 2, 3, 4, 5]);
    for n in 1..=SLOTS as u64 {
        if !asked.contains(&Some(n)) && supply.once_in(4) {
            scheduler.slot_mut(n).stop = stopped_stop(supply);
        }
    }
    let Some(n) = unasked else { return };
    if n > least && supply.once_in(2) {
        scheduler.count = least + supply.below(n - least);
    } else {
        scheduler.slot_mut(n).stop = stopped_stop(supply);
    }
}

fn plant(supply: &mut Supply, scheduler: &mut Scheduler, allowance: &mut u64, bad: Bad) {
    match bad {
        Bad::Memory => {}
        Bad::Count(count) => scheduler.count = count,
        Bad::Allowance(bad) => *allowance = bad,
        Bad::Machine(n, number) => make_refused(supply, &mut scheduler.slot_mut(n).machine, n, number),
    }
}

/// Makes the machine of an aimed slot one that is refused with 3, 4 or 52.
fn make_refused(supply: &mut Supply, machine: &mut Machine, n: u64, number: u64) {
    match number {
        3 => *machine = ill_formed(supply, machine),
        4 => write_code(supply, machine, n),
        _ => unlock(supply, machine, n),
    }
}

fn ill_formed(supply: &mut Supply, machine: &Machine) -> Machine {
    loop {
        let mut other = *machine;
        supply.spoil(&mut other);
        if !well_formed(&other) {
            return other;
        }
    }
}

/// An explicit or a data region that may write code of slot n.
fn write_code(supply: &mut Supply, machine: &mut Machine, n: u64) {
    let base = 64 * (n - 1);
    let permission = supply.pick(&[2, 3]);
    if supply.once_in(2) {
        let first = supply.below(64);
        machine.regions[supply.pick(&EXPLICIT) - 1] = Region { base: base + first, bound: 1 + supply.below(200), permission };
    } else {
        machine.regions[1] = Region { base, bound: ALL << supply.below(9), permission };
        machine.regions[1].base &= machine.regions[1].bound;
    }
}

/// Out of HFI mode, without the lock, or both; half of them may write code,
/// which 4 then does not ask.
fn unlock(supply: &mut Supply, machine: &mut Machine, n: u64) {
    if supply.once_in(2) {
        write_code(supply, machine, n);
    }
    let way = supply.below(3);
    if way != 0 {
        machine.mode = 0;
    }
    if way != 1 {
        machine.options &= !1;
    }
}

// ---- random

/// Several turns one after the other over one memory; between them the main
/// loop may put machines and change what it keeps.
fn sequence(left: &dyn Engine, right: &dyn Engine, supply: &mut Supply, counts: &mut Counts) {
    let (mut scheduler, mut memory) = any_scheduler(supply);
    let mut put = [false; SLOTS];
    for _ in 0..8 {
        if supply.once_in(3) {
            put_any(left, right, supply, &mut scheduler, memory.len(), &mut put, counts);
        }
        if supply.once_in(12) {
            meddle(supply, &mut scheduler);
        }
        let allowance = any_allowance(supply);
        let answer = compare_turn(left, right, &mut scheduler, &mut memory, allowance, counts);
        if answer.slot != 0 && std::mem::take(&mut put[answer.slot as usize - 1]) {
            *counts.turns.entry(AWAKE.to_string()).or_default() += 1;
        }
    }
}

/// A machine put anywhere, mostly into a stopped slot if there is one.
fn put_any(
    left: &dyn Engine,
    right: &dyn Engine,
    supply: &mut Supply,
    scheduler: &mut Scheduler,
    length: usize,
    put: &mut [bool; SLOTS],
    counts: &mut Counts,
) {
    let stopped: Vec<u64> = (1..=SLOTS as u64).filter(|n| scheduler.slot(*n).stopped()).collect();
    let n = match supply.below(8) {
        0 => supply.pick(&[0, 5, ALL, 1 << 32, (1 << 32) + 1, 1 << 63]),
        1..=4 if !stopped.is_empty() => supply.pick(&stopped),
        _ => 1 + supply.below(SLOTS as u64),
    };
    let machine = any_machine(supply, length);
    let was_stopped = stopped.contains(&n);
    if compare_put(left, right, scheduler, n, &machine, counts) {
        put[n as usize - 1] = was_stopped;
    }
}

/// Another place, count or total.
fn meddle(supply: &mut Supply, scheduler: &mut Scheduler) {
    match supply.below(4) {
        0 => scheduler.count = any_count(supply),
        1 => scheduler.total = any_total(supply),
        _ => scheduler.place = any_place(supply),
    }
}

fn any_count(supply: &mut Supply) -> u64 {
    if supply.once_in(16) {
        supply.pick(&BAD_COUNTS)
    } else {
        1 + supply.below(SLOTS as u64)
    }
}

fn any_place(supply: &mut Supply) -> u64 {
    if supply.once_in(8) {
        supply.edge()
    } else {
        supply.below(SLOTS as u64 + 2)
    }
}

/// An allowance, mostly small.
pub fn any_allowance(supply: &mut Supply) -> u64 {
    match supply.below(64) {
        0 | 1 => supply.pick(&BAD_ALLOWANCES),
        2 => supply.edge(),
        3 => ALLOWANCE_LIMIT,
        4..=9 => 1,
        10..=13 => supply.below(400),
        _ => 1 + supply.below(40),
    }
}

/// A machine, mostly in locked HFI mode and well formed.
fn any_machine(supply: &mut Supply, length: usize) -> Machine {
    match supply.below(32) {
        0 => supply.any_state(),
        1 => supply.machine(length),
        2 => {
            let machine = supply.locked_machine(length);
            ill_formed(supply, &machine)
        }
        _ => supply.locked_machine(length),
    }
}

/// A machine that is not refused.
fn good_machine(supply: &mut Supply, length: usize) -> Machine {
    loop {
        let machine = supply.locked_machine(length);
        if machine_refusal(&machine) == 0 {
            return machine;
        }
    }
}

/// Any slots over any memory, or slots whose runs go on for a while.
fn any_scheduler(supply: &mut Supply) -> (Scheduler, Vec<u8>) {
    let (mut scheduler, memory) = if supply.once_in(3) {
        any_slots(supply)
    } else {
        let set = apart::any_set(supply);
        (set.scheduler, set.memory)
    };
    if supply.once_in(12) {
        let n = 1 + supply.below(SLOTS as u64);
        scheduler.slot_mut(n).machine = any_machine(supply, memory.len());
    }
    scheduler.count = any_count(supply);
    scheduler.place = any_place(supply);
    scheduler.total = any_total(supply);
    (scheduler, memory)
}

fn any_slots(supply: &mut Supply) -> (Scheduler, Vec<u8>) {
    let length = supply.length();
    let memory = supply.memory(length);
    let mut scheduler = Scheduler::default();
    for slot in &mut scheduler.slots {
        slot.machine = any_machine(supply, length);
        slot.stop = if supply.once_in(4) { stopped_stop(supply) } else { supply.pick(&[0, 21]) };
    }
    (scheduler, memory)
}

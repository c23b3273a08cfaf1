//! Several machines in turn over one memory (document 02, Job 9). What the
//! document calls a deck is a slot here: a machine and the stop of its last
//! turn. A turn is what it says there: one run of one slot.

use crate::machine::{well_formed, Machine};
use crate::numbers::add;
use crate::overlap::locked_code_is_writable;
use crate::run::run;
use crate::step::MEMORY_LIMIT;

/// "Take 1 to 4 machines and a step allowance of 1 to 10,000."
pub const SLOTS: usize = 4;
pub const ALLOWANCE_LIMIT: u64 = 10_000;

/// The stop of a run whose budget is used up; no other lets a slot go on.
const BUDGET_SPENT: u64 = 21;

/// A machine that takes turns, and the stop of its last one: 0 if it has had
/// none since it was put there.
#[repr(C)]
#[derive(Clone, Copy, Debug, PartialEq, Eq, Default)]
pub struct Slot {
    pub machine: Machine,
    pub stop: u64,
}

/// What the main loop keeps and lends to each turn, in the order of the C
/// record. Slot n, from 1 on, is `slots[n - 1]`; the first `count` take turns.
#[repr(C)]
#[derive(Clone, Copy, Debug, PartialEq, Eq, Default)]
pub struct Scheduler {
    pub slots: [Slot; SLOTS],
    pub count: u64,
    pub place: u64,
    pub total: u64,
}

/// What a turn answers: "the deck and its run's stop, count and address".
#[derive(Clone, Copy, Debug, PartialEq, Eq, Default)]
pub struct Answer {
    pub slot: u64,
    pub stop: u64,
    pub count: u64,
    pub address: u64,
}

impl Slot {
    /// "A deck that stops with anything but 21 is passed over".
    pub fn stopped(&self) -> bool {
        self.stop != 0 && self.stop != BUDGET_SPENT
    }
}

impl Scheduler {
    /// So many machines that have had no turn; "the place starts at 1", "the
    /// reported total starts at 0". At most four.
    pub fn of(machines: &[Machine]) -> Scheduler {
        let mut scheduler = Scheduler { count: machines.len() as u64, place: 1, ..Scheduler::default() };
        for (n, machine) in machines.iter().enumerate() {
            put(&mut scheduler, n as u64 + 1, machine);
        }
        scheduler
    }

    pub fn slot(&self, n: u64) -> &Slot {
        &self.slots[n as usize - 1]
    }

    pub fn slot_mut(&mut self, n: u64) -> &mut Slot {
        &mut self.slots[n as usize - 1]
    }

    /// "a place outside the deck count is taken as 1"
    pub fn place_taken(&self) -> u64 {
        if (1..=self.count).contains(&self.place) {
            self.place
        } else {
            1
        }
    }
}

/// The main loop puts a machine into slot n, 1 to 4, which then has had no
/// turn. Answers whether there is such a slot.
pub fn put(scheduler: &mut Scheduler, n: u64, machine: &Machine) -> bool {
    if n < 1 || n > SLOTS as u64 {
        return false;
    }
    *scheduler.slot_mut(n) = Slot { machine: *machine, stop: 0 };
    true
}

/// One turn. What is refused changes nothing and answers its number alone; so
/// does a turn with all slots stopped, with 0.
pub fn turn(scheduler: &mut Scheduler, memory: &mut [u8], allowance: u64) -> Answer {
    let number = refusal(scheduler, memory.len(), allowance);
    if number != 0 {
        return Answer { stop: number, ..Answer::default() };
    }
    match next_slot(scheduler) {
        None => Answer::default(),
        Some(n) => run_slot(scheduler, n, memory, allowance),
    }
}

/// "the order is 1, 50, 51, then deck by deck from 1, stopped ones left out,
/// 3, 4, 52"; 0 if nothing is refused.
fn refusal(scheduler: &Scheduler, length: usize, allowance: u64) -> u64 {
    // 1. Is memory no longer than 16,777,216?
    if length > MEMORY_LIMIT {
        return 1;
    }
    // 50, the deck count
    if scheduler.count < 1 || scheduler.count > SLOTS as u64 {
        return 50;
    }
    // 51, the allowance
    if allowance < 1 || allowance > ALLOWANCE_LIMIT {
        return 51;
    }
    for n in 1..=scheduler.count {
        let slot = scheduler.slot(n);
        if !slot.stopped() && machine_refusal(&slot.machine) != 0 {
            return machine_refusal(&slot.machine);
        }
    }
    0
}

/// What one machine is refused with, whoever's turn it is.
pub fn machine_refusal(machine: &Machine) -> u64 {
    if !well_formed(machine) {
        return 3;
    }
    // Asked in locked HFI mode alone (Job 5).
    if locked_code_is_writable(machine) {
        return 4;
    }
    // "52, a machine that isn't in locked HFI mode"
    if machine.mode == 0 || !machine.locked() {
        return 52;
    }
    0
}

/// "the first deck not stopped, from the place on and round to the first"
fn next_slot(scheduler: &Scheduler) -> Option<u64> {
    let place = scheduler.place_taken();
    let order = (place..=scheduler.count).chain(1..place);
    order.into_iter().find(|n| !scheduler.slot(*n).stopped())
}

/// "then the place becomes the deck after that one, likewise round"
fn slot_after(n: u64, count: u64) -> u64 {
    if n == count {
        1
    } else {
        n + 1
    }
}

/// "one run, with the allowance as its budget"
fn run_slot(scheduler: &mut Scheduler, n: u64, memory: &mut [u8], allowance: u64) -> Answer {
    let slot = scheduler.slot_mut(n);
    let (stop, count, address) = run(&mut slot.machine, memory, allowance);
    slot.stop = stop;
    scheduler.place = slot_after(n, scheduler.count);
    // "each turn adds its run's count, modulo 2^64"
    scheduler.total = add(scheduler.total, count);
    Answer { slot: n, stop, count, address }
}

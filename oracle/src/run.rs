//! A run of many steps, and resuming after stop 18.

use crate::machine::{well_formed, Machine};
use crate::numbers::add;
use crate::overlap::locked_code_is_writable;
use crate::step::{step_asked, MEMORY_LIMIT};

pub const BUDGET_LIMIT: u64 = 1_000_000;

/// Answers the stop, the count of completed steps and the address given with
/// the stop.
pub fn run(machine: &mut Machine, memory: &mut [u8], budget: u64) -> (u64, u64, u64) {
    // 1. Is memory no longer than 16,777,216?
    if memory.len() > MEMORY_LIMIT {
        return (1, 0, 0);
    }
    // 2. Is the budget at most 1,000,000?
    if budget > BUDGET_LIMIT {
        return (2, 0, 0);
    }
    // 3. Is the machine well formed?
    if !well_formed(machine) {
        return (3, 0, 0);
    }
    // Job 5: in locked HFI mode, is no byte both writable and executable? It
    // stays so in the run: such a guest cannot change its regions, and an enter
    // asks again.
    if locked_code_is_writable(machine) {
        return (4, 0, 0);
    }
    let began_inside = machine.mode == 1;
    let mut count = 0;
    loop {
        // Before each step: does the budget have a step left?
        if count == budget {
            return (21, count, 0);
        }
        let (stop, address) = step_asked(machine, memory);
        if stop != 0 {
            return (stop, count, address);
        }
        count += 1;
        // After a step of a run that began in HFI mode: is the mode still on?
        if began_inside && machine.mode == 0 {
            return (20, count, 0);
        }
    }
}

/// Puts a value in x10 and adds 4 to pc, an ECALL being a long word. Answers 0,
/// or 3 with nothing changed.
pub fn resume(machine: &mut Machine, value: u64) -> u64 {
    if !well_formed(machine) {
        return 3;
    }
    machine.x[10] = value;
    machine.pc = add(machine.pc, 4);
    0
}

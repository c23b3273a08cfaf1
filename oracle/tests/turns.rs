//! The comparison of turns and the experiments on slots that are apart (document
//! 02, Job 9): that they meet what they ask for, hold of the oracle, and notice
//! engines that take turns otherwise.

mod common;
use common::*;
use oracle::apart::{self, experiment, reaches, set_of, Judged, Kind, Set, Step, APART_ROUNDS};
use oracle::compare::{long_memories, Counts, Engine, Oracle};
use oracle::scheduler::{machine_refusal, Answer, Slot, SLOTS};
use oracle::supply::Supply;
use oracle::turns::{self, orders, refusals, TURN_ROUNDS};
use oracle::*;

/// So many rounds of turns alone.
fn turn_rounds(right: &dyn Engine, seed: u64, rounds: u64, counts: &mut Counts) {
    for round in 0..rounds {
        turns::compare(&Oracle, right, &mut Supply::new(1000 * seed + round), round, counts);
    }
}

/// So many rounds of the experiments alone.
fn apart_rounds(right: &dyn Engine, seed: u64, rounds: u64, counts: &mut Counts) {
    for round in 0..rounds {
        apart::compare(&Oracle, right, &mut Supply::new(1000 * seed + round), round, counts);
    }
}

/// Turns over memories about the longest alone.
fn long_turns(right: &dyn Engine, counts: &mut Counts) {
    let mut supply = Supply::new(1);
    for length in [16_777_216, 16_777_217] {
        turns::long(&Oracle, right, &mut supply, &mut vec![0; length], counts);
    }
}

#[test]
fn every_turn_is_met() {
    for seed in 0..8 {
        let mut counts = Counts::default();
        turn_rounds(&Oracle, seed, TURN_ROUNDS, &mut counts);
        long_turns(&Oracle, &mut counts);
        assert!(counts.differences.is_empty(), "{:?}", counts.differences);
        assert_eq!(turns::unmet(&counts.turns), Vec::<String>::new());
    }
    assert_eq!(orders().len(), 5 * 2 + 6 * 4 + 7 * 8 + 8 * 16);
    // Each is asked for: 12 stops, 6 refusals, 4 slots and none, a slot that goes on again, 38 classes.
    assert_eq!(turns::unmet(&Default::default()).len(), 12 + 6 + 5 + 1 + 38);
}

/// Turns about the longest memories are part of the comparison.
#[test]
fn long_memories_have_turns() {
    let mut counts = Counts::default();
    long_memories(&Oracle, &Oracle, 3, &mut counts);
    assert!(counts.differences.is_empty(), "{:?}", counts.differences);
    assert!(counts.turns["refusal 1"] as usize == refusals(true).len() && counts.turns["memory of 16,777,216 bytes, a run"] > 0);
}

/// Every refusal by itself, before each later one, and left out.
#[test]
fn refusals_are_complete() {
    let all = [refusals(true), refusals(false)].concat();
    for number in [1, 50, 51, 3, 4, 52] {
        assert!(all.iter().any(|aim| aim.told() == number && aim.second.is_none()));
    }
    // 1, 50 and 51 each with what comes after it; every two of the machines', but 4 and 52 of one slot
    let pairs = all.iter().filter(|aim| aim.second.is_some() && aim.asked).count();
    assert_eq!(pairs, 14 + 13 + 12 + (12 * 11 / 2 - 4));
    assert_eq!(all.iter().filter(|aim| aim.told() == 0).count(), 12);
}

#[test]
fn apartness_holds_of_the_oracle() {
    for seed in 0..2 {
        let mut counts = Counts::default();
        apart_rounds(&Oracle, seed, APART_ROUNDS, &mut counts);
        assert!(counts.differences.is_empty(), "{:?}", counts.differences);
        assert_eq!(apart::unmet(&counts.apart), Vec::<String>::new());
        apart::print(&counts.apart);
    }
}

/// The oracle with one thing otherwise: before a turn, or after it.
struct Other {
    turn: fn(&mut Scheduler, &mut [u8], u64) -> Answer,
    put: fn(&mut Scheduler, u64, &Machine) -> bool,
}

impl Other {
    fn turning(turn: fn(&mut Scheduler, &mut [u8], u64) -> Answer) -> Other {
        Other { turn, put }
    }

    fn putting(put: fn(&mut Scheduler, u64, &Machine) -> bool) -> Other {
        Other { turn, put }
    }
}

impl Engine for Other {
    fn title(&self) -> String {
        "other".to_string()
    }
    fn decode_encode(&self, _word: u32) -> Option<(u64, u32)> {
        None
    }
    fn step(&self, _machine: &mut Machine, _memory: &mut [u8]) -> Option<(u64, u64)> {
        None
    }
    fn run(&self, _machine: &mut Machine, _memory: &mut [u8], _budget: u64) -> Option<(u64, u64, u64)> {
        None
    }
    fn resume(&self, _machine: &mut Machine, _value: u64) -> Option<u64> {
        None
    }
    fn respond(&self, _sheet: &[u8]) -> Option<Vec<u8>> {
        None
    }
    fn turn(&self, scheduler: &mut Scheduler, memory: &mut [u8], allowance: u64) -> Option<Answer> {
        Some((self.turn)(scheduler, memory, allowance))
    }
    fn put(&self, scheduler: &mut Scheduler, n: u64, machine: &Machine) -> Option<bool> {
        Some((self.put)(scheduler, n, machine))
    }
}

fn noticed(other: &Other) -> bool {
    let mut counts = Counts::default();
    turn_rounds(other, 5, TURN_ROUNDS, &mut counts);
    long_turns(other, &mut counts);
    counts.differing > 0
}

/// The first number of a machine in count, stopped or not.
fn any_refusal(scheduler: &Scheduler) -> u64 {
    let slots = &scheduler.slots[..scheduler.count.min(SLOTS as u64) as usize];
    slots.iter().map(|slot| machine_refusal(&slot.machine)).find(|number| *number != 0).unwrap_or(0)
}

fn refused(stop: u64) -> Answer {
    Answer { stop, ..Answer::default() }
}

/// A turn, and its answer if it made a run.
fn after_run(s: &mut Scheduler, m: &mut [u8], a: u64, then: fn(&mut Scheduler, &Answer)) -> Answer {
    let answer = turn(s, m, a);
    if answer.slot != 0 {
        then(s, &answer);
    }
    answer
}

/// Turns otherwise than Job 9 says are noticed.
#[test]
fn other_turns_are_noticed() {
    assert!(!noticed(&Other::turning(turn)));
    let others: [fn(&mut Scheduler, &mut [u8], u64) -> Answer; 24] = [
        // a place outside is the last slot, or is reduced modulo the count
        |s, m, a| {
            s.place = if s.place > s.count { s.count } else { s.place };
            turn(s, m, a)
        },
        |s, m, a| {
            s.place = if (1..=4).contains(&s.count) && s.place > s.count { (s.place - 1) % s.count + 1 } else { s.place };
            turn(s, m, a)
        },
        // the place is a number of 32 bits
        |s, m, a| {
            s.place = s.place as u32 as u64;
            turn(s, m, a)
        },
        // the place is the slot itself, or is not brought round
        |s, m, a| after_run(s, m, a, |s, answer| s.place = answer.slot),
        |s, m, a| after_run(s, m, a, |s, answer| s.place = answer.slot + 1),
        // the place goes on from the place that there was
        |s, m, a| {
            let place = s.place_taken();
            let answer = turn(s, m, a);
            if answer.slot != 0 {
                s.place = place % s.count + 1;
            }
            answer
        },
        // a place outside is set to 1 with all slots stopped, or on refusal
        |s, m, a| {
            let taken = s.place_taken();
            let answer = turn(s, m, a);
            if answer == Answer::default() {
                s.place = taken;
            }
            answer
        },
        |s, m, a| {
            let taken = s.place_taken();
            let answer = turn(s, m, a);
            if [3, 4, 51, 52].contains(&answer.stop) && answer.slot == 0 {
                s.place = taken;
            }
            answer
        },
        // the total does not wrap, counts turns, or is not kept
        |s, m, a| {
            let before = s.total;
            let answer = turn(s, m, a);
            s.total = before.saturating_add(answer.count);
            answer
        },
        |s, m, a| after_run(s, m, a, |s, _| s.total = s.total.wrapping_add(1)),
        |s, m, a| {
            let before = s.total;
            let answer = turn(s, m, a);
            s.total = before;
            answer
        },
        // a slot whose machine leaves goes on
        |s, m, a| after_run(s, m, a, |s, answer| s.slot_mut(answer.slot).stop = if answer.stop == 20 { 21 } else { answer.stop }),
        // stops are kept as numbers of 32 bits
        |s, m, a| {
            s.slots.iter_mut().for_each(|slot| slot.stop = slot.stop as u32 as u64);
            turn(s, m, a)
        },
        // stopped slots, or those past the count, are asked
        |s, m, a| match turn(&mut s.clone(), &mut m.to_vec(), a).stop {
            1 | 50 | 51 => turn(s, m, a),
            _ if any_refusal(s) != 0 => refused(any_refusal(s)),
            _ => turn(s, m, a),
        },
        |s, m, a| match turn(&mut s.clone(), &mut m.to_vec(), a).stop {
            1 | 50 | 51 => turn(s, m, a),
            _ if any_refusal(&Scheduler { count: 4, ..*s }) != 0 => refused(any_refusal(&Scheduler { count: 4, ..*s })),
            _ => turn(s, m, a),
        },
        // 51 before 50
        |s, m, a| if m.len() <= 16_777_216 && (a < 1 || a > 10_000) { refused(51) } else { turn(s, m, a) },
        // 50 before 1
        |s, m, a| if s.count < 1 || s.count > 4 { refused(50) } else { turn(s, m, a) },
        // 3 before 51
        |s, m, a| match turn(s, m, a).stop {
            51 if turn(&mut s.clone(), &mut m.to_vec(), 1).stop == 3 => refused(3),
            _ => turn(s, m, a),
        },
        // the allowance is a number of 32 bits
        |s, m, a| turn(s, m, a as u32 as u64),
        // a memory of 16,777,216 bytes is too long
        |s, m, a| if m.len() >= 16_777_216 { refused(1) } else { turn(s, m, a) },
        // a turn gives one step fewer
        |s, m, a| turn(s, m, if a > 1 { a - 1 } else { a }),
        // an answer with a slot although nothing was run
        |s, m, a| match turn(s, m, a) {
            answer if answer.slot == 0 && answer.stop > 2 => Answer { slot: s.place_taken(), ..answer },
            answer => answer,
        },
        // with all slots stopped the stop of one is told
        |s, m, a| match turn(s, m, a) {
            answer if answer == Answer::default() => refused(s.slots[0].stop),
            answer => answer,
        },
        // the stop is not kept
        |s, m, a| after_run(s, m, a, |s, answer| s.slot_mut(answer.slot).stop = 0),
    ];
    for (n, other) in others.into_iter().enumerate() {
        assert!(noticed(&Other::turning(other)), "turn {n}");
    }
}

#[test]
fn other_puts_are_noticed() {
    assert!(!noticed(&Other::putting(put)));
    let others: [fn(&mut Scheduler, u64, &Machine) -> bool; 7] = [
        // only within the count
        |s, n, m| n <= s.count && put(s, n, m),
        // from 0 on
        |s, n, m| put(s, n.wrapping_add(1), m),
        // the stop stays, or is 21
        |s, n, m| {
            let before = *s;
            let good = put(s, n, m);
            (0..SLOTS).for_each(|n| s.slots[n].stop = before.slots[n].stop);
            good
        },
        |s, n, m| {
            let good = put(s, n, m);
            if good {
                s.slot_mut(n).stop = 21;
            }
            good
        },
        // the place becomes the slot
        |s, n, m| {
            let good = put(s, n, m);
            s.place = if good { n } else { s.place };
            good
        },
        // only a good machine
        |s, n, m| machine_refusal(m) == 0 && put(s, n, m),
        // a number of 32 bits
        |s, n, m| put(s, n as u32 as u64, m),
    ];
    for (n, other) in others.into_iter().enumerate() {
        assert!(noticed(&Other::putting(other)), "put {n}");
    }
}

/// Does the experiment by itself, without the oracle beside it, tell of an engine that takes turns so?
fn told_of(turn: fn(&mut Scheduler, &mut [u8], u64) -> Answer) -> bool {
    let mut counts = Counts::default();
    apart_rounds(&Other::turning(turn), 6, APART_ROUNDS, &mut counts);
    counts.differences.iter().any(|text| text.starts_with("turns of other"))
}

/// Slots that have to do with each other, and turns that are not fair.
#[test]
fn experiments_can_fail() {
    assert!(!told_of(turn));
    let others: [fn(&mut Scheduler, &mut [u8], u64) -> Answer; 10] = [
        // a register, the fault record or pc of one slot goes over to another
        |s, m, a| after_run(s, m, a, |s, answer| s.slots[(answer.slot % 4) as usize].machine.x[31] = s.slot(answer.slot).machine.x[31]),
        |s, m, a| after_run(s, m, a, |s, answer| s.slots[(answer.slot % 4) as usize].machine.fault.address = s.slot(answer.slot).machine.pc),
        // the allowance goes by what other slots have done
        |s, m, a| turn(s, m, if s.count > 1 && a > 1 && a <= 10_000 { a - s.total % 2 } else { a }),
        // memory: the first byte of all changes after a turn of another slot than the first
        |s, m, a| {
            let answer = turn(s, m, a);
            if answer.slot > 1 {
                m.iter_mut().take(1).for_each(|byte| *byte ^= 1);
            }
            answer
        },
        // a stop of one slot stops all
        |s, m, a| after_run(s, m, a, |s, answer| {
            if answer.stop != 21 {
                s.slots.iter_mut().for_each(|slot| slot.stop = answer.stop);
            }
        }),
        // the address of the slot before is told
        |s, m, a| {
            let answer = turn(s, m, a);
            Answer { address: if answer.slot > 1 { s.slot(answer.slot - 1).machine.pc } else { answer.address }, ..answer }
        },
        // always from slot 1 on: not fair
        |s, m, a| after_run(s, m, a, |s, _| s.place = 1),
        // the place goes on by one from where it was: not fair
        |s, m, a| {
            let place = s.place_taken();
            let answer = turn(s, m, a);
            if answer.slot != 0 {
                s.place = place % s.count + 1;
            }
            answer
        },
        // the total lacks some steps
        |s, m, a| after_run(s, m, a, |s, answer| s.total = s.total.wrapping_sub(answer.count / 9)),
        // a refused turn moves the place: not fair
        |s, m, a| {
            let answer = turn(s, m, a);
            if answer.slot == 0 && answer.stop != 0 {
                s.place = s.place_taken() % s.count + 1;
            }
            answer
        },
    ];
    for (n, other) in others.into_iter().enumerate() {
        assert!(told_of(other), "turn {n}");
    }
}

/// Two slots with 64 bytes of code and data each, by hand: apart, sharing what both read, and not apart.
#[test]
fn apart_by_hand() {
    let words = [
        // 7 is added to a byte of its own data, and a byte of the table read
        hload_through(1, wide(), 7, 0, 0),
        addi(7, 7, 7),
        hstore_through(1, narrow(), 7, 0, 0),
        hload_through(4, wide(), 8, 0, 0),
        jal(0, -16),
    ];
    let memory = memory(0x400, 0, &words);
    let slot = |data: u64, permission: u64| {
        let mut machine = Machine { mode: 1, options: 1, ..Machine::default() };
        machine.regions[0] = Region { base: data, bound: 8, permission: 3 };
        machine.regions[2] = Region { base: 0, bound: ALL << 6, permission: 4 };
        machine.regions[3] = Region { base: 0x300, bound: 8, permission };
        Slot { machine, stop: 0 }
    };
    let plan: Vec<Step> = [7, 3, 0, 9, 1, 20, 6].into_iter().map(|allowance| Step { place: None, allowance }).collect();
    let set = |one: Slot, two: Slot| {
        let mut scheduler = Scheduler { count: 2, place: 2, ..Scheduler::default() };
        (scheduler.slots[0], scheduler.slots[1]) = (one, two);
        Set { scheduler, memory: memory.clone() }
    };
    let differs = |set: &Set| {
        let (mut counts, judged) = (Counts::default(), Judged::of(set));
        experiment(&Oracle, set, &judged, &plan, &mut counts);
        assert!(counts.differences.is_empty(), "{:?}", counts.differences);
        (judged.apart, counts.apart.contains_key(&("not apart, and a slot's turns alone differ", "oracle".to_string())))
    };
    assert_eq!(differs(&set(slot(0x100, 1), slot(0x200, 1))), (true, false));
    // the same byte of data
    assert_eq!(differs(&set(slot(0x100, 1), slot(0x100, 1))), (false, true));
    // one byte in common, the last of the first slot's and the first of the second's, which stores there; none
    assert_eq!(differs(&set(slot(0x100, 1), slot(0x107, 1))), (false, true));
    assert_eq!(differs(&set(slot(0x100, 1), slot(0x108, 1))), (true, false));
    // one may write the table that the other reads, and does not
    assert_eq!(differs(&set(slot(0x100, 3), slot(0x200, 1))), (false, false));
    assert_eq!(differs(&set(slot(0x100, 3), slot(0x200, 0))), (true, false));
    // one writes the table
    assert_eq!(differs(&set(slot(0x300, 1), slot(0x200, 1))), (false, true));
    // unless it is stopped from the start
    let stopped = Slot { stop: 18, ..slot(0x300, 1) };
    assert_eq!(differs(&set(stopped, slot(0x200, 1))), (true, false));
    // past the end of memory there is nothing in common
    assert_eq!(differs(&set(slot(0x400, 1), slot(0x400, 1))), (true, false));
    // what a slot reaches
    let reach = reaches(&slot(0x100, 1).machine, 0x400);
    let told = [(0, (false, false, true)), (0x3f, (false, false, true)), (0x40, (false, false, false)), (0x107, (true, true, false)), (0x300, (true, false, false))];
    for (byte, (read, write, execute)) in told {
        assert_eq!(reach[byte], apart::Reach { read, write, execute });
    }
}

fn wide() -> oracle::instruction::LoadKind {
    oracle::instruction::LoadKind::ByteUnsigned
}

fn narrow() -> oracle::instruction::StoreKind {
    oracle::instruction::StoreKind::Byte
}

/// Most sets of blocks are apart, and most slots of one block are told of.
#[test]
fn kinds() {
    let apart = |kind: Kind| (0..60).filter(|seed| Judged::of(&set_of(&mut Supply::new(*seed), kind)).apart).count();
    let told = [Kind::Blocks, Kind::Trespass, Kind::OneBlock].map(apart);
    assert!(told[0] > 50 && told[1] < 30 && told[2] < 30, "{told:?}");
}

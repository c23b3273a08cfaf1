//! Document 02, Job 9, sentence by sentence: whose turn it is, what is refused,
//! what a turn leaves. The document's deck is a slot here, the main loop the
//! test.

mod common;
use common::*;
use oracle::apart::unfair;
use oracle::instruction::*;
use oracle::scheduler::{machine_refusal, Answer, Slot, ALLOWANCE_LIMIT, SLOTS};
use oracle::*;

const LONG: usize = 16_777_216;

/// Code of slot n stands at 256 * n: it counts in x5 for ever.
fn counting(n: u64) -> Machine {
    Machine { pc: 256 * n, ..locked() }
}

/// Their memory, with some of these words for a slot's first step.
fn world(words: &[(u64, u32)]) -> Vec<u8> {
    let mut bytes = vec![0; 0x3000];
    for n in 1..=SLOTS as u64 {
        let at = 256 * n as usize;
        bytes[at..at + 4].copy_from_slice(&addi(5, 5, 1).to_le_bytes());
        bytes[at + 4..at + 8].copy_from_slice(&jal(0, -4).to_le_bytes());
    }
    for (n, word) in words {
        let at = 256 * *n as usize;
        bytes[at..at + 4].copy_from_slice(&word.to_le_bytes());
    }
    bytes
}

fn counters(count: u64) -> Scheduler {
    Scheduler::of(&(1..=count).map(counting).collect::<Vec<_>>())
}

fn nothing() -> Answer {
    Answer::default()
}

fn refused(number: u64) -> Answer {
    Answer { stop: number, ..nothing() }
}

/// A turn that must be answered so and change nothing.
fn changes_nothing(scheduler: &Scheduler, memory: &mut Vec<u8>, allowance: u64, told: Answer) {
    let (mut after, bytes) = (*scheduler, memory.clone());
    assert_eq!(turn(&mut after, memory, allowance), told);
    assert_eq!(after, *scheduler);
    assert!(*memory == bytes, "memory changed");
}

/// The slots that so many turns have.
fn slots_of(scheduler: &mut Scheduler, memory: &mut [u8], turns: usize) -> Vec<u64> {
    (0..turns).map(|_| turn(scheduler, memory, 3).slot).collect()
}

fn stopped(scheduler: &mut Scheduler, slots: &[u64]) {
    slots.iter().for_each(|n| scheduler.slot_mut(*n).stop = 20);
}

/// Not well formed; writes its code; not locked; outside HFI mode.
fn ill() -> Machine {
    Machine { options: 16, ..counting(1) }
}

fn writer() -> Machine {
    let mut machine = counting(1);
    machine.regions[0] = Region { base: 0xfff, bound: 1, permission: 2 };
    machine
}

fn unlocked() -> Machine {
    Machine { options: 14, ..counting(1) }
}

fn left() -> Machine {
    Machine { mode: 0, ..counting(1) }
}

/// "Take 1 to 4 machines": the record is that of the C interface.
#[test]
fn record() {
    assert_eq!((std::mem::size_of::<Slot>(), std::mem::size_of::<Scheduler>()), (592, 2392));
    assert_eq!((std::mem::offset_of!(Slot, machine), std::mem::offset_of!(Slot, stop)), (0, 584));
    assert_eq!(std::mem::offset_of!(Scheduler, slots), 0);
    let last = [std::mem::offset_of!(Scheduler, count), std::mem::offset_of!(Scheduler, place), std::mem::offset_of!(Scheduler, total)];
    assert_eq!(last, [2368, 2376, 2384]);
}

/// "A turn is one run, with the allowance as its budget, of the first deck not stopped ... It answers the deck and its
/// run's stop, count and address."
#[test]
fn a_turn_is_one_run() {
    let ends = [
        (addi(5, 5, 1), 21, 0),
        (ECALL, 18, 0),
        (EBREAK, 19, 0),
        (0, 13, 0),
        (hfi(HfiKind::Exit, 0, 0, 0), 20, 0),
        (hfi(HfiKind::Enter, 0, 0, 0), 23, 0),
        (hfi(HfiKind::Select, 0, 5, 0), 25, 0),
        (load(LoadKind::Byte, 5, 0, 0), 16, 0),
        (hstore(StoreKind::Byte, 5, 0, 64), 16, 0),
        (jalr(0, 1, 0), 11, 0),
        (load(LoadKind::Double, 5, 1, 0), 17, 0x1000),
        (jalr(0, 3, 0), 12, 0xe00),
    ];
    for (word, stop, address) in ends {
        for n in 1..=4 {
            let mut bytes = world(&[(n, word)]);
            // 17 and 12 in a memory that ends below the regions
            if stop == 17 || stop == 12 {
                bytes.truncate(0xe00);
            }
            let mut scheduler = counters(4);
            for slot in &mut scheduler.slots {
                (slot.machine.x[1], slot.machine.x[3]) = (0x1000, 0xe00);
            }
            scheduler.place = n;
            let (mut machine, mut memory) = (scheduler.slot(n).machine, bytes.clone());
            let run = run(&mut machine, &mut memory, 5);
            let mut told = scheduler;
            *told.slot_mut(n) = Slot { machine, stop: run.0 };
            told.place = if n == 4 { 1 } else { n + 1 };
            told.total = run.1;
            let answer = turn(&mut scheduler, &mut bytes, 5);
            assert_eq!(answer, Answer { slot: n, stop: run.0, count: run.1, address: run.2 });
            assert_eq!(scheduler, told);
            assert!(bytes == memory);
            assert_eq!((answer.stop, answer.address), (stop, address), "{word:08x}");
        }
    }
    // 10 is of a pc alone
    let mut scheduler = counters(1);
    scheduler.slots[0].machine.pc += 1;
    assert_eq!(turn(&mut scheduler, &mut world(&[]), 5), Answer { slot: 1, stop: 10, ..nothing() });
}

/// "with the allowance as its budget", "a step allowance of 1 to 10,000"
#[test]
fn allowance() {
    let mut bytes = world(&[]);
    for allowance in [1, 2, 9_999, 10_000] {
        let mut scheduler = counters(2);
        assert_eq!(turn(&mut scheduler, &mut bytes, allowance), Answer { slot: 1, stop: 21, count: allowance, address: 0 });
        assert_eq!(scheduler.slots[0].machine.x[5], allowance.div_ceil(2));
    }
    assert_eq!(ALLOWANCE_LIMIT, 10_000);
    for allowance in [0, 10_001, 10_002, 1_000_000, 1_000_001, (1 << 32) + 1, ALL] {
        changes_nothing(&counters(2), &mut bytes, allowance, refused(51));
    }
    // the step that leaves may be the last one allowed
    let mut scheduler = counters(1);
    assert_eq!(turn(&mut scheduler, &mut world(&[(1, hfi(HfiKind::Exit, 0, 0, 0))]), 1), Answer { slot: 1, stop: 20, count: 1, address: 0 });
}

/// "Decks are numbered from 1 and the place starts at 1"; "then the place becomes the deck after that one, likewise round"
#[test]
fn round() {
    for count in 1..=4 {
        let (mut scheduler, mut bytes) = (counters(count), world(&[]));
        assert_eq!((scheduler.place, scheduler.total), (1, 0));
        for number in 0..9 {
            assert_eq!(scheduler.place, number % count + 1);
            assert_eq!(turn(&mut scheduler, &mut bytes, 2).slot, number % count + 1);
        }
        assert_eq!(scheduler.total, 18);
        assert!((1..=count).all(|n| scheduler.slot(n).stop == 21));
        assert!((count + 1..=4).all(|n| *scheduler.slot(n) == Slot::default()));
    }
}

/// "a place outside the deck count is taken as 1"
#[test]
fn place_outside() {
    for count in 1..=4u64 {
        for place in [0, count + 1, 5, 6, 1 << 32, (1 << 32) + count, ALL] {
            let (mut scheduler, mut bytes) = (counters(count), world(&[]));
            scheduler.place = place;
            assert_eq!(turn(&mut scheduler, &mut bytes, 2).slot, 1);
            assert_eq!(scheduler.place, if count == 1 { 1 } else { 2 });
            // and from there on: slot 1 being stopped, the next one
            let mut scheduler = counters(count);
            (scheduler.place, scheduler.slots[0].stop) = (place, 18);
            assert_eq!(turn(&mut scheduler, &mut bytes, 2).slot, if count == 1 { 0 } else { 2 });
            assert_eq!(scheduler.place, if count == 1 { place } else { 2 % count + 1 });
        }
    }
}

/// "of the first deck not stopped, from the place on and round to the first": slots, place, stopped ones, whose turns.
#[test]
fn first_not_stopped() {
    let cases: [(u64, u64, &[u64], &[u64]); 16] = [
        (4, 1, &[], &[1, 2, 3, 4, 1]),
        (4, 3, &[], &[3, 4, 1, 2, 3]),
        (4, 4, &[4], &[1, 2, 3, 1, 2]),
        (4, 2, &[2], &[3, 4, 1, 3, 4]),
        (4, 2, &[2, 3], &[4, 1, 4, 1, 4]),
        (4, 2, &[2, 3, 4], &[1, 1, 1, 1]),
        (4, 4, &[1, 2, 4], &[3, 3, 3]),
        (4, 1, &[1, 2, 3], &[4, 4, 4]),
        (4, 0, &[1], &[2, 3, 4, 2]),
        (4, 5, &[1, 3], &[2, 4, 2, 4]),
        (3, 3, &[], &[3, 1, 2, 3]),
        (3, 3, &[3], &[1, 2, 1]),
        (3, 4, &[1], &[2, 3, 2]),
        (2, 2, &[], &[2, 1, 2]),
        (2, 2, &[2], &[1, 1]),
        (1, 1, &[], &[1, 1, 1]),
    ];
    for (count, place, at_rest, told) in cases {
        let (mut scheduler, mut bytes) = (counters(count), world(&[]));
        scheduler.place = place;
        stopped(&mut scheduler, at_rest);
        assert_eq!(slots_of(&mut scheduler, &mut bytes, told.len()), told, "{count} {place} {at_rest:?}");
    }
    // a slot past the count has no turn
    let mut scheduler = counters(4);
    (scheduler.count, scheduler.place) = (2, 3);
    assert_eq!(slots_of(&mut scheduler, &mut world(&[]), 4), [1, 2, 1, 2]);
}

/// "A deck that stops with anything but 21 is passed over"
#[test]
fn stops() {
    let mut bytes = world(&[]);
    for stop in (1..70).chain([1 << 32, (1 << 32) + 21, (21 << 32), ALL]) {
        let mut scheduler = counters(2);
        scheduler.slots[0].stop = stop;
        assert_eq!(scheduler.slots[0].stopped(), stop != 21);
        assert_eq!(turn(&mut scheduler, &mut bytes, 2).slot, if stop == 21 { 1 } else { 2 }, "{stop}");
    }
    let words = [ECALL, EBREAK, 0, hfi(HfiKind::Exit, 0, 0, 0), hfi(HfiKind::Enter, 0, 0, 0), load(LoadKind::Byte, 5, 0, 0), jalr(0, 0, 1024)];
    for word in words {
        let (mut scheduler, mut bytes) = (counters(3), world(&[(2, word)]));
        for slot in &mut scheduler.slots {
            slot.machine.regions[2].bound = !0x3ff; // code ends at 400
        }
        scheduler.slots[2].machine.pc = 256; // beside slot 1
        assert_eq!(slots_of(&mut scheduler, &mut bytes, 7), [1, 2, 3, 1, 3, 1, 3]);
        assert!(![0, 21].contains(&scheduler.slots[1].stop));
    }
}

/// A run that leaves HFI mode stops its slot with 20, also with budget left. Its machine is then outside HFI mode, which
/// nothing asks while it is stopped.
#[test]
fn twenty() {
    let (mut scheduler, mut bytes) = (counters(2), world(&[(1, hfi(HfiKind::Exit, 0, 0, 0))]));
    assert_eq!(turn(&mut scheduler, &mut bytes, 9), Answer { slot: 1, stop: 20, count: 1, address: 0 });
    assert_eq!((scheduler.slots[0].stop, scheduler.slots[0].machine.mode), (20, 0));
    assert_eq!(machine_refusal(&scheduler.slots[0].machine), 52);
    assert_eq!(slots_of(&mut scheduler, &mut bytes, 3), [2, 2, 2]);
    // put there again as it is, it refuses every turn
    let machine = scheduler.slots[0].machine;
    assert!(put(&mut scheduler, 1, &machine));
    changes_nothing(&scheduler, &mut bytes, 9, refused(52));
}

/// "until the main loop puts a machine there again"
#[test]
fn put_again() {
    let (mut scheduler, mut bytes) = (counters(3), world(&[(2, ECALL)]));
    assert_eq!(slots_of(&mut scheduler, &mut bytes, 5), [1, 2, 3, 1, 3]);
    assert_eq!((scheduler.slots[1].stop, scheduler.place), (18, 1));
    // its call is answered, and it goes on
    let mut machine = scheduler.slots[1].machine;
    assert_eq!(resume(&mut machine, 7), 0);
    let mut told = scheduler;
    told.slots[1] = Slot { machine, stop: 0 };
    assert!(put(&mut scheduler, 2, &machine));
    assert_eq!(scheduler, told);
    assert_eq!(slots_of(&mut scheduler, &mut bytes, 4), [1, 2, 3, 1]);
    assert_eq!(scheduler.slots[1].machine.x[10], 7);
    // into any of the four, whatever the count, and into no other
    for n in [0, 5, 6, 1 << 32, (1 << 32) + 1, ALL] {
        let before = scheduler;
        assert!(!put(&mut scheduler, n, &ill()));
        assert_eq!(scheduler, before);
    }
    for count in [0, 1, 4, 5, ALL] {
        for n in 1..=4 {
            let mut scheduler = Scheduler { count, place: 9, total: ALL, ..counters(4) };
            stopped(&mut scheduler, &[1, 2, 3, 4]);
            let mut told = scheduler;
            told.slots[n as usize - 1] = Slot { machine: ill(), stop: 0 };
            assert!(put(&mut scheduler, n, &ill()));
            assert_eq!(scheduler, told);
        }
    }
    // a machine that is put over one that goes on has had no turn
    let mut scheduler = counters(2);
    slots_of(&mut scheduler, &mut bytes, 2);
    assert!(put(&mut scheduler, 1, &counting(1)));
    assert_eq!((*scheduler.slot(1), scheduler.slot(2).stop), (Slot { machine: counting(1), stop: 0 }, 18));
}

/// "The reported total starts at 0, and each turn adds its run's count, modulo 2^64."
#[test]
fn total() {
    let mut bytes = world(&[(2, hfi(HfiKind::Exit, 0, 0, 0)), (3, ECALL)]);
    let mut scheduler = counters(3);
    let mut totals = Vec::new();
    for _ in 0..5 {
        turn(&mut scheduler, &mut bytes, 10);
        totals.push(scheduler.total);
    }
    // the step that leaves counts, the call does not
    assert_eq!(totals, [10, 11, 11, 21, 31]);
    for (before, after) in [(ALL - 10, ALL), (ALL - 9, 0), (ALL, 9), (ALL - 5, 4), (1 << 63, (1 << 63) + 10)] {
        let mut scheduler = Scheduler { total: before, ..counters(1) };
        assert_eq!(turn(&mut scheduler, &mut bytes, 10), Answer { slot: 1, stop: 21, count: 10, address: 0 });
        assert_eq!(scheduler.total, after);
    }
    // a run of no step adds nothing
    let mut scheduler = Scheduler { total: ALL, place: 3, ..counters(3) };
    assert_eq!(turn(&mut scheduler, &mut bytes, 10), Answer { slot: 3, stop: 18, ..nothing() });
    assert_eq!(scheduler.total, ALL);
}

/// "With all decks stopped a turn makes no run, changes nothing and answers 0 for deck, stop, count and address."
#[test]
fn all_stopped() {
    for count in 1..=4 {
        for place in [0, 1, count, count + 1, ALL] {
            let mut scheduler = Scheduler { place, total: 77, ..counters(count) };
            stopped(&mut scheduler, &(1..=count).collect::<Vec<_>>());
            scheduler.slots[0].stop = 1 + place % 20;
            changes_nothing(&scheduler, &mut world(&[]), 5, nothing());
            // whatever machines they are, and those past the count
            scheduler.slots[0].machine = ill();
            scheduler.slots[3].machine = writer();
            changes_nothing(&scheduler, &mut world(&[]), 5, nothing());
            // 50 and 51 are asked first (reading A67)
            changes_nothing(&scheduler, &mut world(&[]), 0, refused(51));
            changes_nothing(&Scheduler { count: 0, ..scheduler }, &mut world(&[]), 5, refused(50));
        }
    }
    // so is 1
    let mut scheduler = counters(2);
    stopped(&mut scheduler, &[1, 2]);
    changes_nothing(&scheduler, &mut vec![0; LONG + 1], 5, refused(1));
    changes_nothing(&scheduler, &mut vec![0; LONG], 5, nothing());
}

/// "Refused: 50, the deck count"
#[test]
fn count() {
    for count in [0, 5, 6, 8, 1 << 32, (1 << 32) + 1, (1 << 32) + 4, 1 << 63, ALL] {
        changes_nothing(&Scheduler { count, ..counters(4) }, &mut world(&[]), 5, refused(50));
    }
    for count in 1..=4 {
        assert_eq!(turn(&mut Scheduler { count, ..counters(4) }, &mut world(&[]), 5).stop, 21);
    }
}

/// "the order is 1, 50, 51, then deck by deck"
#[test]
fn order() {
    let mut long = vec![0; LONG + 1];
    let mut bytes = world(&[]);
    let mut bad = counters(4);
    bad.slots[0].machine = ill();
    let none = Scheduler { count: 0, ..bad };
    changes_nothing(&none, &mut long, 0, refused(1));
    changes_nothing(&none, &mut long, 1, refused(1));
    changes_nothing(&bad, &mut long, 0, refused(1));
    changes_nothing(&bad, &mut long, 1, refused(1));
    changes_nothing(&none, &mut bytes, 0, refused(50));
    changes_nothing(&none, &mut bytes, 1, refused(50));
    changes_nothing(&bad, &mut bytes, 0, refused(51));
    changes_nothing(&bad, &mut bytes, 1, refused(3));
    long.truncate(LONG);
    changes_nothing(&none, &mut long, 0, refused(50));
    assert_eq!(turn(&mut counters(1), &mut long, 1).stop, 13);
}

/// 3, 4 and 52 of one slot: 3 first; 4 is of locked HFI mode alone, so a slot has it or 52.
#[test]
fn numbers_of_a_machine() {
    let both = |first: fn() -> Machine, second: fn(&mut Machine)| {
        let mut machine = first();
        second(&mut machine);
        machine_refusal(&machine)
    };
    assert_eq!(machine_refusal(&counting(1)), 0);
    assert_eq!((machine_refusal(&ill()), machine_refusal(&writer())), (3, 4));
    assert_eq!((machine_refusal(&unlocked()), machine_refusal(&left())), (52, 52));
    assert_eq!(both(writer, |m| m.x[0] = 1), 3);
    assert_eq!(both(unlocked, |m| m.selector = 11), 3);
    assert_eq!(both(left, |m| m.handler = 1), 3);
    assert_eq!(both(writer, |m| m.mode = 2), 3);
    assert_eq!(both(writer, |m| m.mode = 0), 52);
    assert_eq!(both(writer, |m| m.options = 0), 52);
    assert_eq!(both(left, |m| m.options = 0), 52);
    // the other options do not matter
    assert_eq!(both(|| counting(1), |m| m.options = 15), 0);
    // nor does what an exit has left
    assert_eq!(both(|| counting(1), |m| (m.reason, m.exit_pc, m.fault.occurred) = (2, ALL, 1)), 0);
}

/// "deck by deck from 1, stopped ones left out, 3, 4, 52": the first slot that has one, whoever's turn it is.
#[test]
fn slot_by_slot() {
    let bad: [(fn() -> Machine, u64); 4] = [(ill, 3), (writer, 4), (unlocked, 52), (left, 52)];
    let mut bytes = world(&[]);
    for place in 0..=5 {
        for n in 1..=4 {
            for (machine, number) in bad {
                let mut one = Scheduler { place, total: 5, ..counters(4) };
                one.slot_mut(n).machine = machine();
                changes_nothing(&one, &mut bytes, 5, refused(number));
                one.slot_mut(n).stop = 21;
                changes_nothing(&one, &mut bytes, 5, refused(number));
                for other in n + 1..=4 {
                    for (later, _) in bad {
                        let mut two = one;
                        two.slot_mut(other).machine = later();
                        changes_nothing(&two, &mut bytes, 5, refused(number));
                        // left out where it is stopped: then the later one is told
                        two.slot_mut(n).stop = 20;
                        changes_nothing(&two, &mut bytes, 5, refused(machine_refusal(&later())));
                    }
                }
            }
        }
    }
}

/// Stopped slots and those past the count are not asked.
#[test]
fn not_asked() {
    let mut bytes = world(&[]);
    for machine in [ill(), writer(), unlocked(), left()] {
        for n in 1..=4 {
            let mut scheduler = counters(4);
            scheduler.slot_mut(n).machine = machine;
            stopped(&mut scheduler, &[n]);
            let told = *scheduler.slot(n);
            let others: Vec<u64> = (1..=4).filter(|other| *other != n).collect();
            assert_eq!(slots_of(&mut scheduler, &mut bytes, 3), others);
            assert_eq!(*scheduler.slot(n), told);
            // not stopped, but past the count
            let mut scheduler = counters(4);
            (scheduler.slot_mut(n).machine, scheduler.count) = (machine, n - 1);
            let told: Vec<u64> = (1..n).collect();
            if n > 1 {
                assert_eq!(slots_of(&mut scheduler, &mut bytes, told.len()), told);
            }
        }
    }
}

/// "Over turns that each get the place and deck count the last one left, a deck that stays unstopped gets its turn before
/// any other deck gets two": every count, place and set of stopped slots, and each set that stops in its second turn.
#[test]
fn fairness() {
    for (count, place) in (1..=4u64).flat_map(|count| (0..=count + 1).map(move |place| (count, place))) {
        for (at_rest, ending) in (0..1u64 << (2 * count)).map(|n| (n & ((1 << count) - 1), n >> count)) {
            let within = |set: u64| (1..=count).filter(move |n| set >> (n - 1) & 1 == 1).collect::<Vec<_>>();
            let (mut scheduler, mut bytes) = (counters(count), world(&[]));
            scheduler.place = place;
            stopped(&mut scheduler, &within(at_rest));
            let start = scheduler;
            // x5 counts to 2 in two turns of two steps; then a call stops the slot
            for n in within(ending) {
                let at = 256 * n as usize;
                bytes[at + 4..at + 8].copy_from_slice(&jal(0, 4).to_le_bytes());
                bytes[at + 8..at + 12].copy_from_slice(&addi(5, 5, 1).to_le_bytes());
                bytes[at + 12..at + 16].copy_from_slice(&ECALL.to_le_bytes());
            }
            let answers: Vec<Answer> = (0..10).map(|_| turn(&mut scheduler, &mut bytes, 2)).collect();
            assert_eq!(unfair(&start, &answers), None);
            let on: Vec<u64> = within(!at_rest & !ending);
            // each that goes on has its part of the last turns
            for n in &on {
                let own = answers[5..].iter().filter(|answer| answer.slot == *n).count();
                assert!(own >= 5 / count as usize, "{answers:?}");
            }
            assert_eq!(answers[9].slot == 0, on.is_empty());
        }
    }
    // what it is told by
    let answer = |slot: u64, stop: u64| Answer { slot, stop, ..nothing() };
    assert!(unfair(&counters(2), &[answer(1, 21), answer(1, 21)]).is_some());
    assert!(unfair(&counters(2), &[answer(1, 21), answer(2, 21), answer(1, 21), answer(2, 21)]).is_none());
    assert!(unfair(&counters(2), &[answer(1, 21), answer(2, 20), answer(1, 21), answer(1, 21)]).is_none());
    assert!(unfair(&counters(3), &[answer(1, 21), answer(2, 21), refused(51), answer(1, 21)]).is_some());
    assert!(unfair(&counters(3), &[answer(3, 21), answer(2, 21), answer(1, 21), answer(2, 21), answer(3, 21)]).is_some());
    assert!(unfair(&counters(3), &[answer(3, 21), answer(2, 21), answer(1, 21), answer(3, 21), answer(2, 21)]).is_none());
    assert!(unfair(&counters(1), &[answer(1, 21), answer(1, 21)]).is_none());
}

/// All slots have one memory: where one may write what another reads, that one sees it.
#[test]
fn one_memory() {
    let mut bytes = world(&[(1, store(StoreKind::Byte, 6, 2, 0)), (2, load(LoadKind::Byte, 7, 2, 0))]);
    let mut scheduler = counters(2);
    for slot in &mut scheduler.slots {
        (slot.machine.x[2], slot.machine.x[6]) = (0x1000, 42);
    }
    turn(&mut scheduler, &mut bytes, 1);
    turn(&mut scheduler, &mut bytes, 1);
    assert_eq!((bytes[0x1000], scheduler.slots[1].machine.x[7]), (42, 42));
}

/// 11 and 16 write the fault record of their slot's machine.
#[test]
fn fault_record() {
    let mut bytes = world(&[(2, store(StoreKind::Double, 6, 2, 0))]);
    let mut scheduler = Scheduler { place: 2, ..counters(2) };
    scheduler.slots[1].machine.x[2] = 0xffc;
    assert_eq!(turn(&mut scheduler, &mut bytes, 1), Answer { slot: 2, stop: 16, ..nothing() });
    assert_eq!(scheduler.slots[1].machine.fault, Fault { occurred: 1, region: 0, op: 2, address: 0xffc });
    assert_eq!(scheduler.slots[0], Slot { machine: counting(1), stop: 0 });
}

//! Question 8 as Job 6 has split it: 23, 24 and 25 before 14, then 22 and 15.

mod common;
use common::*;
use oracle::compare::{rounds, Counts, Engine, Oracle, H_ROUNDS};
use oracle::hfi_rules::{aims, by_number, compare, compare_rule_sheet, unmet, Aim, Flaw, Place};
use oracle::instruction::*;
use oracle::step::jump_target;
use oracle::supply::Supply;
use oracle::*;

/// The number of a word of opcode 5b by document 02's sentences, one after the
/// other, with the operand, the selector and the target as they are.
fn number(machine: &Machine, funct7: u32, operand: u64, target: u64) -> u64 {
    let (inside, locked) = (machine.mode == 1, machine.options % 2 == 1);
    // 23, enter in HFI mode
    if funct7 <= 1 && inside {
        return 23;
    }
    // 24, exit outside it
    if funct7 == 2 && !inside {
        return 24;
    }
    // 25, a region or handler instruction that HFI mode forbids
    if inside && (funct7 == 10 || funct7 >= 3 && locked) {
        return 25;
    }
    let (explicit, data, code) = (0b1011, 0b0011, 0b0100);
    let own = [0, explicit, data, code, explicit, explicit, explicit, data, data, data, code][machine.selector as usize];
    let bad = match funct7 {
        0 | 1 => operand > 15,
        3 => !(1..=10).contains(&operand),
        8 => machine.selector == 0 || operand & !own != 0,
        4..=9 => machine.selector == 0,
        _ => false,
    };
    if bad {
        return 14;
    }
    if funct7 == 1 && target % 2 != 0 {
        return 15;
    }
    0
}

/// Every row, mode, options, selector, and operands about every edge.
#[test]
fn every_row_everywhere() {
    let mut seen = std::collections::BTreeMap::new();
    for (funct7, (kind, has_rd, has_rs1, has_rs2)) in HFI_TABLE.into_iter().enumerate() {
        let keep = |has: bool, register: u64| if has { register } else { 0 };
        let code = hfi(kind, keep(has_rd, 7), keep(has_rs1, 5), keep(has_rs2, 6));
        let bytes = memory(64, 0, &[code]);
        for (mode, options, selector) in (0..128).map(|n| (n % 2, n / 2 % 16, n / 32)) {
            for operand in [0, 1, 2, 3, 4, 5, 8, 10, 11, 15, 16, 17, 1 << 32, (1 << 32) + 1, 1 << 63, ALL] {
                for target in [8, 9, 10, 11] {
                    let mut machine = Machine { mode, options, selector, ..inside() };
                    (machine.x[5], machine.x[6]) = (operand, target);
                    let told = number(&machine, funct7 as u32, operand, target);
                    *seen.entry(told).or_insert(0) += 1;
                    match told {
                        0 => assert_eq!(step(&mut machine, &mut bytes.clone()), (0, 0)),
                        _ => stops(machine, &bytes, told, 0),
                    }
                }
            }
        }
    }
    assert_eq!(seen.keys().copied().collect::<Vec<u64>>(), [0, 14, 15, 23, 24, 25]);
}

/// The h-words ask whether they stand in HFI mode, and nothing of Job 6.
#[test]
fn h_words_keep_fourteen() {
    for options in 0..16 {
        for code in [hload(LoadKind::Double, 5, 0, 0), hstore(StoreKind::Byte, 5, 0, 0)] {
            stops(Machine { mode: 0, options, ..inside() }, &memory(0x3000, 0, &[code]), 14, 0);
            completes(Machine { options, ..inside() }, &memory(0x3000, 0, &[code]));
        }
    }
}

/// "14 before 22", and 23 before both.
#[test]
fn before_twenty_two() {
    for code in [hfi(HfiKind::Enter, 0, 5, 0), hfi(HfiKind::EnterJump, 0, 5, 6)] {
        let bytes = memory(64, 0, &[code]);
        let mut machine = Machine { mode: 0, ..inside() };
        machine.regions[1].base = 0;
        machine.x[6] = 2;
        for (operand, told) in [(1, 22), (17, 14)] {
            machine.x[5] = operand;
            stops(machine, &bytes, told, 0);
            stops(Machine { mode: 1, ..machine }, &bytes, 23, 0);
            stops(Machine { mode: 1, options: 1, ..machine }, &bytes, 4, 0);
        }
    }
}

/// In locked HFI mode nothing gets 14: what is left of question 8 there is 23 and 25.
#[test]
fn locked_runs_never_stop_with_fourteen() {
    let mut counts = Counts::default();
    rounds(&Oracle, &Oracle, 61, 40, &mut counts);
    assert!(counts.differences.is_empty(), "{:?}", counts.differences);
    let stops = |stop: u64| counts.isolation_stops.get(&stop).copied().unwrap_or_default();
    assert!(stops(14) == 0 && stops(24) == 0 && stops(23) > 0 && stops(25) > 0, "{:?}", counts.isolation_stops);
}

/// A run that comes to each after some steps: they count, and the machine is the one they left.
#[test]
fn after_some_steps() {
    for (mode, options, code, told) in [
        (1, 0, hfi(HfiKind::Enter, 0, 5, 0), 23),
        (1, 1, hfi(HfiKind::EnterJump, 0, 5, 6), 23),
        (0, 1, hfi(HfiKind::Exit, 0, 0, 0), 24),
        (1, 1, hfi(HfiKind::GetBase, 5, 0, 0), 25),
        (1, 6, hfi(HfiKind::SetHandler, 0, 5, 0), 25),
    ] {
        let words = [addi(5, 0, 20), addi(6, 0, 2), store(StoreKind::Half, 5, 7, 0), code, ECALL];
        let mut machine = Machine { mode, options, reason: 2, exit_pc: 9, ..inside() };
        machine.x[7] = 0x1000;
        machine.fault = Fault { occurred: 1, region: 2, op: 1, address: 0x77 };
        let mut expected = Machine { pc: 12, ..machine };
        (expected.x[5], expected.x[6]) = (20, 2);
        let mut bytes = memory(0x2000, 0, &words);
        let mut after = bytes.clone();
        after[0x1000] = 20;
        assert_eq!(run(&mut machine, &mut bytes, 50), (told, 3, 0));
        assert_eq!((machine, bytes), (expected, after));
    }
}

/// The fewest rounds that ask for it meet every aim, in each way, and each number often.
#[test]
fn every_aim_is_met() {
    for seed in 0..4 {
        let mut counts = Counts::default();
        rounds(&Oracle, &Oracle, 200 + seed, H_ROUNDS, &mut counts);
        assert!(counts.differences.is_empty(), "{:?}", counts.differences);
        assert_eq!(unmet(&counts.rules), Vec::<String>::new());
        let met = by_number(&counts.rules);
        assert_eq!(met.keys().copied().collect::<Vec<u64>>(), [0, 14, 23, 24, 25]);
        for (number, [steps, runs, sheets]) in met {
            assert!(steps >= 14 && runs >= 14 && (sheets >= 8) == (number != 24), "{number}: {steps} {runs} {sheets}");
        }
    }
    let reached = aims().iter().filter(|aim| aim.on_a_sheet()).count();
    assert_eq!(unmet(&Counts::default().rules).len(), 2 * aims().len() + reached);
    // The words that each number has.
    let of = |number: u64| aims().into_iter().filter(|aim| aim.told() == number).count();
    assert_eq!([23, 24, 25].map(of), [14, 2, 19]);
}

/// Runs that cross the mode come to each number by themselves.
#[test]
fn crossing_runs_meet_each() {
    let mut counts = Counts::default();
    rounds(&Oracle, &Oracle, 300, 100, &mut counts);
    for kind in [
        "runs begun inside that ended with 23 or 25",
        "runs begun outside that entered and ended with 23",
        "runs begun outside that ended with 24",
        "runs begun outside that left and ended with 24",
        "runs begun outside that entered and ended with 25",
        "runs begun outside that ended with 14",
    ] {
        assert!(counts.crossings.get(kind).is_some_and(|count| *count >= 2), "{kind}: {:?}", counts.crossings);
    }
    for stops in [&counts.step_stops, &counts.run_stops] {
        assert!([14, 23, 24, 25].iter().all(|stop| stops.get(stop).is_some_and(|count| *count >= 4)), "{stops:?}");
    }
    for stop in ["14", "23", "25"] {
        assert!(counts.sheet_lines[stop] >= 100, "{:?}", counts.sheet_lines);
    }
}

/// The oracle, where the numbers of question 8 are given otherwise: by the
/// number, the machine before the step and its word.
struct Telling(fn(u64, &Machine, &Instruction) -> u64);

impl Telling {
    fn told(&self, stop: u64, before: &Machine, memory: &[u8]) -> u64 {
        let at = before.pc as usize;
        match memory.get(at..at + 4).and_then(|bytes| decode(u32::from_le_bytes(bytes.try_into().unwrap()))) {
            Some(instruction) if [14, 15, 22, 23, 24, 25].contains(&stop) => (self.0)(stop, before, &instruction),
            _ => stop,
        }
    }
}

impl Engine for Telling {
    fn title(&self) -> String {
        "telling".to_string()
    }
    fn decode_encode(&self, _word: u32) -> Option<(u64, u32)> {
        None
    }
    fn step(&self, machine: &mut Machine, memory: &mut [u8]) -> Option<(u64, u64)> {
        let (stop, address) = step(machine, memory);
        Some((self.told(stop, machine, memory), address))
    }
    fn run(&self, machine: &mut Machine, memory: &mut [u8], budget: u64) -> Option<(u64, u64, u64)> {
        let (stop, count, address) = run(machine, memory, budget);
        Some((self.told(stop, machine, memory), count, address))
    }
    fn resume(&self, machine: &mut Machine, value: u64) -> Option<u64> {
        Some(resume(machine, value))
    }
    fn respond(&self, _sheet: &[u8]) -> Option<Vec<u8>> {
        None
    }
}

fn noticed(told: fn(u64, &Machine, &Instruction) -> u64) -> u64 {
    let mut counts = Counts::default();
    compare(&Oracle, &Telling(told), &mut Supply::new(8), 0, &mut counts);
    counts.differing
}

fn operand(machine: &Machine, instruction: &Instruction) -> u64 {
    match *instruction {
        Instruction::Hfi { rs1, .. } => machine.get(rs1),
        _ => 0,
    }
}

fn is(instruction: &Instruction, kinds: &[HfiKind]) -> bool {
    matches!(instruction, Instruction::Hfi { kind, .. } if kinds.contains(kind))
}

#[test]
fn other_splits_are_noticed() {
    assert_eq!(noticed(|stop, _, _| stop), 0);
    let faults: [fn(u64, &Machine, &Instruction) -> u64; 13] = [
        // as before Job 6; one number left out
        |stop, _, _| if stop > 22 { 14 } else { stop },
        |stop, _, _| if stop == 23 { 14 } else { stop },
        |stop, _, _| if stop == 24 { 14 } else { stop },
        |stop, _, _| if stop == 25 { 14 } else { stop },
        // 14 before the new ones: a bad operand, no selection
        |stop, m, i| if stop == 23 && operand(m, i) > 15 { 14 } else { stop },
        |stop, m, i| if is(i, &[HfiKind::Select]) && stop == 25 && !(1..=3).contains(&operand(m, i)) { 14 } else { stop },
        |stop, m, i| if is(i, &[HfiKind::GetBase, HfiKind::SetBound]) && stop == 25 && m.selector == 0 { 14 } else { stop },
        // an h-word outside gets 24
        |stop, m, i| if stop == 14 && m.mode == 0 && !matches!(i, Instruction::Hfi { .. }) { 24 } else { stop },
        // 25 without the handler's words, or without reset, or for what 14 keeps
        |stop, _, i| if is(i, &[HfiKind::SetHandler, HfiKind::GetHandler]) && stop == 25 { 14 } else { stop },
        |stop, m, i| if is(i, &[HfiKind::SetHandler]) && stop == 25 && m.options % 2 == 0 { 14 } else { stop },
        |stop, _, i| if is(i, &[HfiKind::Reset]) && stop == 25 { 14 } else { stop },
        |stop, m, _| if stop == 14 && m.mode == 1 { 25 } else { stop },
        // 15 before 23
        |stop, m, i| if stop == 23 && jump_target(m, i).is_some_and(|target| target % 2 != 0) { 15 } else { stop },
    ];
    for (n, fault) in faults.into_iter().enumerate() {
        assert!(noticed(fault) > 0, "fault {n}");
    }
}

/// Sheets whose answer is another number are noticed too.
#[test]
fn sheets_tell_the_number() {
    struct Older;
    impl Engine for Older {
        fn title(&self) -> String {
            "older".to_string()
        }
        fn decode_encode(&self, _word: u32) -> Option<(u64, u32)> {
            None
        }
        fn step(&self, _machine: &mut Machine, _memory: &mut [u8]) -> Option<(u64, u64)> {
            None
        }
        fn run(&self, _machine: &mut Machine, _memory: &mut [u8], _budget: u64) -> Option<(u64, u64, u64)> {
            None
        }
        fn resume(&self, _machine: &mut Machine, _value: u64) -> Option<u64> {
            None
        }
        fn respond(&self, sheet: &[u8]) -> Option<Vec<u8>> {
            let text = String::from_utf8(respond(sheet)).unwrap();
            let numbers = text.strip_prefix("23,").or(text.strip_prefix("25,"));
            Some(numbers.map_or(text.clone(), |rest| format!("14,{rest}")).into_bytes())
        }
    }
    let mut supply = Supply::new(9);
    for aim in aims().into_iter().filter(Aim::on_a_sheet) {
        let mut counts = Counts::default();
        compare_rule_sheet(&Oracle, &Older, &mut supply, aim, &mut counts);
        assert_eq!(counts.differing, [23, 25].contains(&aim.told()) as u64, "{aim:?}: {:?}", counts.differences);
    }
}

/// A few aims by hand.
#[test]
fn aims_by_hand() {
    let told = |word: usize, place: Place, flaw: Flaw| Aim { word, place, flaw }.told();
    assert_eq!(told(0, Place::Unlocked, Flaw::Operand), 23);
    assert_eq!(told(1, Place::Locked, Flaw::Target), 23);
    assert_eq!(told(0, Place::OutsideLock, Flaw::Operand), 14);
    assert_eq!(told(1, Place::Outside, Flaw::Target), 0);
    assert_eq!(told(2, Place::OutsideLock, Flaw::Nothing), 24);
    assert_eq!(told(2, Place::Locked, Flaw::Nothing), 0);
    assert_eq!(told(5, Place::Locked, Flaw::Selection), 25);
    assert_eq!(told(5, Place::Unlocked, Flaw::Selection), 14);
    assert_eq!(told(10, Place::Unlocked, Flaw::Nothing), 25);
    assert_eq!(told(11, Place::Unlocked, Flaw::Nothing), 0);
    assert_eq!(told(11, Place::Locked, Flaw::Nothing), 25);
    assert_eq!(told(13, Place::OutsideLock, Flaw::Nothing), 14);
    assert_eq!(told(14, Place::Locked, Flaw::Nothing), 0);
}

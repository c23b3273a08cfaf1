//! Document 02, Job 5: stops 4 and 22, the intervals behind them, and the
//! comparison's aimed regions.

mod common;
use common::*;
use oracle::compare::{rounds, Counts, Engine, Oracle, H_ROUNDS};
use oracle::instruction::*;
use oracle::machine::{region_kind, with_others_zero, RegionKind, EXECUTE, WRITE};
use oracle::numbers::bit;
use oracle::overlap::{
    code_is_writable, executable_intervals, extent, granted_explicit, granted_implicit, shared, writable_explicit, writable_implicit,
    Interval,
};
use oracle::reach::{executable, writable};
use oracle::region::{matches, rule_of_kind};
use oracle::supply::Supply;
use oracle::writable_code::{aims, class_names, classes, compare, hiding_aims, unmet, Seen};
use oracle::*;

const TOP: u64 = 1 << 48;

fn region(base: u64, bound: u64, permission: u64) -> Region {
    Region { base, bound, permission }
}

fn mask(k: u32) -> u64 {
    ALL << k
}

/// `locked` with these regions, code being 1000 to 1fff. The one not named is unset.
fn of_one(one: Region) -> Machine {
    Machine { pc: 0x1000, regions: with_others_zero([one, Region::default(), region(0x1000, mask(12), 4)]), ..locked() }
}

fn of_two(two: Region) -> Machine {
    Machine { regions: with_others_zero([Region::default(), two, region(0x1000, mask(12), 4)]), ..of_one(two) }
}

/// Words that do nothing, 4,096 bytes from 1000 on.
fn code() -> Vec<u8> {
    memory(0x2000, 0x1000, &[addi(0, 0, 0); 1024])
}

/// The regions are refused with 4 by step and run, and with 22 by both enter forms, which leave all as it was; unlocked or
/// outside HFI mode nothing is asked.
fn refused(machine: Machine) {
    assert!(code_is_writable(&machine));
    let bytes = code();
    stops(machine, &bytes, 4, 0);
    let mut after = machine;
    assert_eq!(run(&mut after, &mut bytes.clone(), 0), (4, 0, 0));
    assert_eq!(resume(&mut after, 9), 0);
    for enter in enters() {
        let mut outside = Machine { mode: 0, pc: 0x1000, ..machine };
        (outside.x[5], outside.x[6]) = (machine.options, 0x1004);
        stops(outside, &memory(0x2000, 0x1000, &[enter]), 22, 0);
        outside.x[5] -= 1;
        completes(outside, &memory(0x2000, 0x1000, &[enter]));
    }
    let (unlocked, outside) = (Machine { options: machine.options - 1, ..machine }, Machine { mode: 0, ..machine });
    for mut other in [unlocked, outside] {
        assert_ne!(step(&mut other, &mut bytes.clone()).0, 4);
        assert_ne!(run(&mut other, &mut bytes.clone(), 5).0, 4);
    }
}

/// They are not.
fn passes(machine: Machine) {
    assert!(!code_is_writable(&machine));
    assert_eq!(run(&mut machine.clone(), &mut code(), 0), (21, 0, 0));
    assert_ne!(step(&mut machine.clone(), &mut code()).0, 4);
    for enter in enters() {
        let mut outside = Machine { mode: 0, pc: 0x1000, ..machine };
        (outside.x[5], outside.x[6]) = (1, 0x1004);
        completes(outside, &memory(0x2000, 0x1000, &[enter]));
    }
}

fn enters() -> [u32; 2] {
    [hfi(HfiKind::Enter, 0, 5, 0), hfi(HfiKind::EnterJump, 0, 5, 6)]
}

#[test]
fn four_by_region_one() {
    // one byte at either end, and one byte further
    refused(of_one(region(0x1000, 1, 2)));
    refused(of_one(region(0x1fff, 1, 3)));
    refused(of_one(region(0xfc1, 0x40, 3)));
    refused(of_one(region(0x1fff, 0x40, 3)));
    passes(of_one(region(0xfff, 1, 3)));
    passes(of_one(region(0xfc0, 0x40, 3)));
    passes(of_one(region(0, 0x1000, 3)));
    passes(of_one(region(0x2000, 1, 3)));
    passes(of_one(region(0x2000, (1 << 32) - 0x2000, 3)));
    // inside, the same, around
    refused(of_one(region(0x1800, 4, 3)));
    refused(of_one(region(0x1000, 0x1000, 3)));
    refused(of_one(region(0, 0x10000, 3)));
    refused(of_one(region(0, 1 << 32, 2)));
    // large
    refused(of_one(region(0, 0x10000, 11)));
    refused(of_one(region(0, TOP, 10)));
    passes(of_one(region(0x10000, TOP - 0x10000, 11)));
    let far = |one: Region| Machine { regions: with_others_zero([one, Region::default(), region(0x20000, mask(16), 4)]), ..of_one(one) };
    passes(far(region(0x10000, 0x10000, 11)));
    refused(far(region(0x10000, 0x20000, 11)));
    refused(far(region(0x20000, 0x10000, 11)));
    passes(far(region(0x30000, 0x10000, 11)));
}

#[test]
fn four_by_region_two() {
    refused(of_two(region(0x1000, mask(0), 2)));
    refused(of_two(region(0x1fff, mask(0), 3)));
    passes(of_two(region(0xfff, mask(0), 3)));
    passes(of_two(region(0x2000, mask(0), 3)));
    refused(of_two(region(0x1800, mask(3), 3)));
    refused(of_two(region(0x1000, mask(12), 3)));
    refused(of_two(region(0, mask(13), 3)));
    refused(of_two(region(0, mask(48), 2)));
    passes(of_two(region(0, mask(12), 3)));
    passes(of_two(region(0x2000, mask(13), 3)));
    // both, and one of them beside code
    let both = |one: Region, two: Region| Machine { regions: with_others_zero([one, two, region(0x1000, mask(12), 4)]), ..of_one(one) };
    refused(both(region(0x1000, 8, 3), region(0x1000, mask(3), 3)));
    refused(both(region(0x2000, 8, 3), region(0x1000, mask(3), 3)));
    refused(both(region(0x1000, 8, 3), region(0x2000, mask(3), 3)));
    passes(both(region(0xff8, 8, 3), region(0x2000, mask(13), 3)));
    // the two may share what is not code
    passes(both(region(0x2000, 64, 3), region(0x2000, mask(6), 3)));
}

#[test]
fn four_asks_for_permissions() {
    for permission in [0, 1, 8, 9] {
        passes(of_one(region(0, 0x10000, permission)));
    }
    for permission in [0, 1] {
        passes(of_two(region(0x1000, mask(12), permission)));
    }
    let mut idle = of_two(region(0x1000, mask(12), 3));
    idle.regions[0] = region(0, 0x10000, 11);
    refused(idle);
    idle.regions[2].permission = 0;
    passes(idle);
    faults(idle, &code(), 11, 3, 3, 0x1000);
}

/// "A region that breaks its rule keeps its values and matches nothing."
#[test]
fn four_leaves_broken_regions_out() {
    for bound in [0, (1 << 32) + 1, (1 << 32) - 0x1000 + 1, ALL, ALL - 0xfff] {
        passes(of_one(region(0x1000, bound, 3)));
    }
    for (base, bound) in [(0, 0), (0, 0x10001), (0x1000, 0x10000), (0, 0x8000), (0x10000, TOP), (0, ALL & !0xffff)] {
        passes(of_one(region(base, bound, 11)));
    }
    for (base, bound) in [(0x1004, mask(3)), (0x1000, 0), (0, mask(49)), (0x1000, mask(12) ^ 1 << 40), (0x1000, mask(12) >> 1)] {
        passes(of_two(region(base, bound, 3)));
    }
    for (base, bound) in [(0x1004, mask(3)), (0x1000, 0), (0, mask(49)), (0x1000, mask(12) ^ 1 << 40)] {
        let mut machine = of_two(region(0, mask(13), 3));
        machine.regions[0] = region(0, 0x10000, 11);
        machine.regions[2] = region(base, bound, 4);
        passes(machine);
    }
    // past 2^48
    let top = |one: Region| Machine { regions: with_others_zero([one, Region::default(), region(0, mask(48), 4)]), ..of_one(one) };
    refused(top(region(TOP - 1, 1, 2)));
    passes(top(region(TOP - 1, 2, 2)));
    passes(top(region(TOP, 1, 2)));
}

/// Reading A53: memory's length does not count. Reading A30: neither do the four bytes of a fetch.
#[test]
fn four_past_memory_and_of_a_tiny_code_region() {
    let mut machine = locked();
    machine.regions = with_others_zero([Region::default(), region(0x10000, mask(16), 3), region(0, mask(17), 4)]);
    stops(machine, &memory(64, 0, &[ECALL]), 4, 0);
    stops(machine, &[], 4, 0);
    machine.regions = with_others_zero([region(TOP - 1, 1, 3), Region::default(), region(TOP - 0x1000, mask(12), 4)]);
    stops(machine, &[], 4, 0);
    for (base, k) in [(0, 0), (4, 1), (7, 0)] {
        machine.regions = with_others_zero([region(base, 1, 2), Region::default(), region(base, mask(k), 4)]);
        stops(machine, &memory(64, 0, &[ECALL]), 4, 0);
        machine.regions = with_others_zero([Region::default(), region(base, mask(0), 2), region(base, mask(k), 4)]);
        stops(machine, &memory(64, 0, &[ECALL]), 4, 0);
        machine.regions[1].base = base + (1 << k);
        passes(machine);
    }
}

/// 1, 2, 3, then 4, then the budget and all that a step asks.
#[test]
fn four_in_its_order() {
    let machine = of_two(region(0x1000, mask(12), 3));
    let mut long = vec![0; 16_777_217];
    assert_eq!(step(&mut machine.clone(), &mut long), (1, 0));
    assert_eq!(run(&mut machine.clone(), &mut long, 5), (1, 0, 0));
    assert_eq!(run(&mut machine.clone(), &mut code(), 1_000_001), (2, 0, 0));
    for ill in [Machine { options: 17, ..machine }, Machine { handler: 1, ..machine }, Machine { selector: 11, ..machine }] {
        stops(ill, &code(), 3, 0);
    }
    for budget in [0, 1, 1_000_000] {
        assert_eq!(run(&mut machine.clone(), &mut code(), budget), (4, 0, 0));
    }
    for pc in [0x1001, 0x1002, 0, 0x2000, ALL] {
        stops(Machine { pc, ..machine }, &code(), 4, 0); // before 10, 11, 12
    }
    for word in [0, hfi(HfiKind::Enter, 0, 0, 0), jal(0, 2), load(LoadKind::Byte, 5, 0, 0), ECALL, EBREAK] {
        stops(machine, &memory(0x2000, 0x1000, &[word]), 4, 0); // before 13 to 19
    }
    let mut exits = machine;
    assert_eq!(run(&mut exits, &mut memory(0x2000, 0x1000, &[hfi(HfiKind::Exit, 0, 0, 0)]), 5), (4, 0, 0)); // before 20
    assert_eq!(exits, machine);
    for options in (0..16).map(|n| n | 1) {
        stops(Machine { options, ..machine }, &code(), 4, 0);
    }
}

/// After 14, before 15; by the operand's lock bit and the regions as they are.
#[test]
fn twenty_two_in_its_order() {
    let mut machine = Machine { mode: 0, options: 0, ..of_two(region(0x1000, mask(12), 3)) };
    let at = |word: u32| memory(0x2000, 0x1000, &[word]);
    for enter in enters() {
        machine.x[6] = 0x1001;
        for options in [17, 19, 1 << 32 | 1, ALL] {
            machine.x[5] = options;
            stops(machine, &at(enter), 14, 0);
        }
        for options in 0..16 {
            machine.x[5] = options;
            match (options % 2, enter == enters()[1]) {
                (1, _) => stops(machine, &at(enter), 22, 0),
                (_, true) => stops(machine, &at(enter), 15, 0),
                _ => drop(completes(machine, &at(enter))),
            }
        }
        // the options that the machine has do not count, only the operand
        machine.x[5] = 3;
        stops(Machine { options: 15, ..machine }, &at(enter), 22, 0);
        // in HFI mode: 23, or 4 where it is locked
        stops(Machine { mode: 1, options: 14, ..machine }, &at(enter), 23, 0);
        stops(Machine { mode: 1, options: 15, ..machine }, &at(enter), 4, 0);
        // 10, 12 and 13 come before
        stops(Machine { pc: 0x1001, ..machine }, &at(enter), 10, 0);
        stops(Machine { pc: 0x2000, ..machine }, &at(enter), 12, 0x2000);
        stops(machine, &at(enter | 1 << 7), 13, 0);
    }
}

/// 22 ends a run that began outside; the steps before it are counted, that one is not.
#[test]
fn twenty_two_in_runs() {
    let words = [
        hfi(HfiKind::Enter, 0, 0, 0),
        store(StoreKind::Word, 7, 8, 0x10),
        hfi(HfiKind::Exit, 0, 0, 0),
        hfi(HfiKind::Enter, 0, 5, 0),
        ECALL,
    ];
    let mut machine = Machine { mode: 0, ..of_two(region(0x1000, mask(12), 3)) };
    (machine.x[5], machine.x[7], machine.x[8]) = (1, EBREAK as u64, 0x1000);
    machine.fault.occurred = 1;
    let mut bytes = memory(0x2000, 0x1000, &words);
    let mut after = machine;
    assert_eq!(run(&mut after, &mut bytes, 50), (22, 3, 0));
    // unlocked, the store into code was made
    assert_eq!(bytes[0x1010..0x1014], EBREAK.to_le_bytes());
    let mut expected = Machine { options: 0, reason: 1, exit_pc: 0x1008, pc: 0x100c, ..machine };
    expected.fault.occurred = 0;
    assert_eq!(after, expected);
    // regions set outside count at once: base, bound and permission of region 2
    let words = [hfi(HfiKind::SetPermission, 0, 9, 0), hfi(HfiKind::Enter, 0, 5, 0), ECALL];
    for (permission, told) in [(1, (18, 2, 0)), (3, (22, 1, 0))] {
        let mut machine = Machine { selector: 2, ..machine };
        machine.x[9] = permission;
        assert_eq!(run(&mut machine, &mut memory(0x2000, 0x1000, &words), 50), told);
    }
}

/// A locked guest cannot come to writable code; an unlocked one can and goes on.
#[test]
fn four_is_asked_once() {
    let widen = [hfi(HfiKind::Select, 0, 9, 0), hfi(HfiKind::SetBase, 0, 8, 0), store(StoreKind::Word, 7, 8, 12), 0, ECALL];
    let mut machine = of_two(region(0x2000, mask(12), 3));
    (machine.x[7], machine.x[8], machine.x[9]) = (EBREAK as u64, 0x1000, 2);
    assert_eq!(run(&mut machine.clone(), &mut memory(0x3000, 0x1000, &widen), 50), (25, 0, 0));
    machine.options = 0;
    let mut bytes = memory(0x3000, 0x1000, &widen);
    assert_eq!(run(&mut machine, &mut bytes, 50), (19, 3, 0));
    machine.options = 1;
    assert_eq!(run(&mut machine, &mut bytes, 50), (4, 0, 0));
}

/// Is the byte granted by implicit regions, given in their order: by the first that matches.
fn first_match_grants(regions: &[Region], wanted: u32, byte: u64) -> bool {
    regions.iter().find(|region| matches(region, byte)).is_some_and(|region| bit(region.permission, wanted))
}

fn explicit_grants(regions: &[Region], wanted: u32, byte: u64) -> bool {
    let has = |r: &Region| rule_of_kind(RegionKind::Explicit, r) && byte >= r.base && byte - r.base < r.bound;
    regions.iter().any(|region| has(region) && bit(region.permission, wanted))
}

fn holds(intervals: &[Interval], byte: u64) -> bool {
    let found = intervals.iter().filter(|i| i.start <= byte as u128 && (byte as u128) < i.end).count();
    assert!(found < 2, "not disjoint: {intervals:?}");
    found == 1
}

/// The lists of Job 7: a lower region without write hides a later one with it.
#[test]
fn intervals_of_several_regions() {
    let data = |regions: &[Region]| granted_implicit(RegionKind::ImplicitData, regions, WRITE);
    let interval = |start, end| Interval { start, end };
    let (all, barred) = (region(0, mask(6), 3), |base, k| region(base, mask(k), 1));
    assert_eq!(data(&[all]), [interval(0, 64)]);
    assert_eq!(data(&[barred(16, 4), all]), [interval(0, 16), interval(32, 64)]);
    assert_eq!(data(&[all, barred(16, 4)]), [interval(0, 64)]);
    assert_eq!(data(&[barred(0, 6), all]), []);
    assert_eq!(data(&[barred(0, 4), barred(48, 4), all]), [interval(16, 48)]);
    assert_eq!(data(&[barred(0, 5), barred(32, 5), all]), []);
    assert_eq!(data(&[barred(16, 3), region(16, mask(4), 2), all]), [interval(24, 32), interval(0, 16), interval(32, 64)]);
    // a broken one hides nothing
    assert_eq!(data(&[region(8, mask(4), 1), all]), [interval(0, 64)]);
    // explicit ones each count whole
    let explicit = |regions: &[Region]| granted_explicit(regions, WRITE);
    assert_eq!(explicit(&[region(0, 8, 1), region(4, 8, 2)]), [interval(4, 12)]);
    assert_eq!(explicit(&[region(4, 4, 2), region(0, 12, 3), region(2, 3, 3)]), [interval(4, 8), interval(0, 4), interval(8, 12)]);
    // code: the second of two regions, hidden by the first
    let code = |regions: &[Region]| granted_implicit(RegionKind::ImplicitCode, regions, EXECUTE);
    let hidden = code(&[region(16, mask(4), 0), region(0, mask(6), 4)]);
    assert_eq!(hidden, [interval(0, 16), interval(32, 64)]);
    assert!(shared(&data(&[region(16, mask(4), 3)]), &hidden).is_empty());
    assert_eq!(shared(&data(&[region(0, mask(5), 3)]), &hidden), [interval(0, 16)]);
}

/// A region within 64 bytes, now and then a broken one.
fn small_region(supply: &mut Supply, kind: RegionKind) -> Region {
    let permission = supply.below(8) & if kind == RegionKind::ImplicitCode { 4 } else { 3 };
    let k = supply.below(7) as u32;
    match kind {
        RegionKind::Explicit => region(supply.below(64), supply.below(20), permission),
        _ if supply.once_in(8) => region(supply.below(64), mask(k), permission),
        _ => region(supply.below(64 >> k) << k, mask(k), permission),
    }
}

/// Byte by byte, lists of up to four regions of each kind.
#[test]
fn intervals_byte_by_byte() {
    let mut supply = Supply::new(51);
    let mut seen = [0; 2];
    for _ in 0..4_000 {
        let mut list = |kind| (0..supply.below(5)).map(|_| small_region(&mut supply, kind)).collect::<Vec<_>>();
        let explicit = list(RegionKind::Explicit);
        let data = list(RegionKind::ImplicitData);
        let code = list(RegionKind::ImplicitCode);
        let writable = [granted_explicit(&explicit, WRITE), granted_implicit(RegionKind::ImplicitData, &data, WRITE)];
        let runs = granted_implicit(RegionKind::ImplicitCode, &code, EXECUTE);
        let mut both = false;
        for byte in 0..128 {
            let written = [explicit_grants(&explicit, WRITE, byte), first_match_grants(&data, WRITE, byte)];
            assert_eq!([holds(&writable[0], byte), holds(&writable[1], byte)], written);
            assert_eq!(holds(&runs, byte), first_match_grants(&code, EXECUTE, byte));
            both |= written.contains(&true) && first_match_grants(&code, EXECUTE, byte);
        }
        assert_eq!(writable.iter().any(|list| !shared(list, &runs).is_empty()), both);
        seen[both as usize] += 1;
    }
    assert!(seen[0] > 500 && seen[1] > 500, "{seen:?}");
}

/// Against `reach`, which asks each byte of a machine.
#[test]
fn intervals_and_reach() {
    let mut supply = Supply::new(52);
    let mut seen = [0; 2];
    for _ in 0..4_000 {
        let mut machine = locked();
        let least = supply.below(10);
        for n in 1..=10 {
            let zero = supply.below(10) < least;
            machine.regions[n - 1] = if zero { Region::default() } else { small_region(&mut supply, region_kind(n)) };
        }
        for byte in (0..128).chain([ALL, TOP, TOP - 1]) {
            let written = holds(&writable_explicit(&machine), byte) || holds(&writable_implicit(&machine), byte);
            assert_eq!(written, writable(&machine, byte));
            assert_eq!(holds(&executable_intervals(&machine), byte), executable(&machine, byte));
        }
        let both = (0..128).any(|byte| writable(&machine, byte) && executable(&machine, byte));
        assert_eq!(code_is_writable(&machine), both);
        seen[both as usize] += 1;
    }
    assert!(seen[0] > 400 && seen[1] > 400, "{seen:?}");
    // the widest regions
    assert_eq!(extent(RegionKind::ImplicitCode, &region(0, mask(48), 4)), Some(Interval { start: 0, end: TOP as u128 }));
    assert_eq!(extent(RegionKind::Explicit, &region(0, TOP, 11)), Some(Interval { start: 0, end: TOP as u128 }));
}

/// The fewest rounds that ask for it meet every class, and refuse few locked machines otherwise.
#[test]
fn every_class_of_regions_is_met() {
    for seed in 0..40 {
        let mut counts = Counts::default();
        compare(&Oracle, &Oracle, &mut Supply::new(seed), &mut counts);
        assert!(counts.differences.is_empty(), "{:?}", counts.differences);
    }
    let mut all = Counts::default();
    for seed in 0..4 {
        let mut counts = Counts::default();
        rounds(&Oracle, &Oracle, 100 + seed, H_ROUNDS, &mut counts);
        assert!(counts.differences.is_empty(), "{:?}", counts.differences);
        assert_eq!(unmet(&counts.code_classes, &counts.code_numbers), Vec::<String>::new());
        all.add(counts);
    }
    // most locked machines are not refused
    let stops = |stop: u64| all.isolation_stops.get(&stop).copied().unwrap_or_default();
    assert!(stops(4) > 0 && stops(4) * 5 < all.isolation_stops.values().sum(), "{:?}", all.isolation_stops);
    let nothing = Counts::default();
    assert_eq!(unmet(&nothing.code_classes, &nothing.code_numbers).len(), class_names().len() + 8 * 2);
}

/// Classes that say so have a byte that is writable and executable, and the others have none: sought byte by byte.
#[test]
fn classes_by_bytes() {
    let mut supply = Supply::new(53);
    for aim in (0..20).flat_map(|_| [aims(), hiding_aims()].concat()) {
        let (machine, memory, numbers) = supply.aimed_regions_world(aim);
        let ends = machine.regions.iter().flat_map(|r| [r.base, r.base.wrapping_add(r.bound), r.base.wrapping_sub(r.bound)]);
        let both = ends.flat_map(|end| (0..3).map(move |n| end.wrapping_add(n).wrapping_sub(1)))
            .any(|byte| writable(&machine, byte) && executable(&machine, byte));
        let seen = Seen::of(&machine, numbers, memory.len());
        for (class, refused) in classes(aim, &seen) {
            assert_eq!(refused, both, "{class}: {aim:?}");
        }
    }
}

/// The oracle, where 4 and 22 go by another test.
struct Asking(Box<dyn Fn(&Machine) -> bool>);

impl Engine for Asking {
    fn title(&self) -> String {
        "asking".to_string()
    }
    fn decode_encode(&self, _word: u32) -> Option<(u64, u32)> {
        None
    }
    fn step(&self, machine: &mut Machine, memory: &mut [u8]) -> Option<(u64, u64)> {
        self.run(machine, memory, 1).map(|(stop, count, address)| (if count == 1 { 0 } else { stop }, address))
    }
    fn run(&self, machine: &mut Machine, memory: &mut [u8], budget: u64) -> Option<(u64, u64, u64)> {
        // Is it asked at all? Then regions that share all bytes are refused.
        let mut posed = *machine;
        posed.regions = with_others_zero([Region::default(), region(0, mask(48), 3), region(0, mask(48), 4)]);
        let refusal = run(&mut posed, &mut memory.to_vec(), budget);
        if ![4, 22].contains(&refusal.0) || refusal.1 > 0 {
            return Some(run(machine, memory, budget));
        }
        if (self.0)(machine) {
            return Some(refusal);
        }
        // Some other number where the oracle refuses.
        let answer = run(machine, memory, budget);
        Some(if [4, 22].contains(&answer.0) { (99, 0, 0) } else { answer })
    }
    fn resume(&self, machine: &mut Machine, value: u64) -> Option<u64> {
        Some(resume(machine, value))
    }
    fn respond(&self, _sheet: &[u8]) -> Option<Vec<u8>> {
        None
    }
}

fn noticed(test: impl Fn(&Machine) -> bool + 'static) -> bool {
    let mut counts = Counts::default();
    compare(&Oracle, &Asking(Box::new(test)), &mut Supply::new(7), &mut counts);
    counts.differing > 0
}

/// Some byte where a region begins, or ends, passes: the first byte that is both has one of these places.
fn sought(machine: &Machine, test: impl Fn(u64) -> bool) -> bool {
    let own = (1..=10).filter_map(|n| extent(region_kind(n), &machine.regions[n - 1]));
    own.flat_map(|own| [own.start as u64, own.end as u64]).any(test)
}

type Ends = (u64, u64);

/// A test of the first and last bytes of what is writable and what is executable.
fn meets(machine: &Machine, test: impl Fn(Ends, Ends) -> bool) -> bool {
    let ends = |list: Vec<Interval>| list.into_iter().map(|own| (own.start as u64, own.end as u64 - 1)).collect::<Vec<_>>();
    let data = [ends(writable_explicit(machine)), ends(writable_implicit(machine))].concat();
    let code = ends(executable_intervals(machine));
    data.iter().any(|own| code.iter().any(|code| test(*own, *code)))
}

fn crosses(own: Ends, code: Ends) -> bool {
    own.0 <= code.1 && code.0 <= own.1
}

/// The machine with some regions changed.
fn with(machine: &Machine, change: impl Fn(usize, &mut Region)) -> Machine {
    let mut changed = *machine;
    (1..=10).for_each(|n| change(n, &mut changed.regions[n - 1]));
    changed
}

/// The permission that counts in a region.
fn granted(n: usize) -> u64 {
    if region_kind(n) == RegionKind::ImplicitCode { 4 } else { 2 }
}

#[test]
fn other_tests_are_noticed() {
    assert!(!noticed(code_is_writable));
    assert!(!noticed(|m| meets(m, crosses)));
    assert!(!noticed(|m| sought(m, |byte| writable(m, byte) && executable(m, byte))));
    let faults: [fn(&Machine) -> bool; 14] = [
        |_| false,
        |_| true,
        // regions of one kind left out, or all but the first of each
        |m| code_is_writable(&with(m, |n, r| if region_kind(n) == RegionKind::Explicit { *r = Region::default() })),
        |m| code_is_writable(&with(m, |n, r| if region_kind(n) == RegionKind::ImplicitData { *r = Region::default() })),
        |m| code_is_writable(&with(m, |n, r| if n > 3 { *r = Region::default() })),
        // nothing is hidden: regions without the permission are left out; explicit ones hide too
        |m| code_is_writable(&with(m, |n, r| if r.permission & granted(n) == 0 { *r = Region::default() })),
        |m| sought(m, |byte| (1..=10).all(|n| n % 7 == 3 || n == 2 || !lacks(m, n, byte)) && writable(m, byte) && executable(m, byte)),
        // regions that touch count; a shared end byte does not
        |m| meets(m, |own, code| own.0 <= code.1 + 1 && code.0 <= own.1 + 1),
        |m| meets(m, |own, code| own.0 < code.1 && code.0 <= own.1),
        |m| meets(m, |own, code| own.0 <= code.1 && code.0 < own.1),
        // only code's first byte is asked, or only the writable region's
        |m| meets(m, |own, code| own.0 <= code.0 && code.0 <= own.1),
        |m| meets(m, |own, code| code.0 <= own.0 && own.0 <= code.1),
        // only what memory has; only code that a word fits into
        |m| meets(m, |own, code| crosses(own, code) && own.0.max(code.0) < 256),
        |m| meets(m, |own, code| crosses(own, code) && code.1 - code.0 >= 3),
    ];
    for (n, fault) in faults.into_iter().enumerate() {
        assert!(noticed(fault), "fault {n}");
    }
    // each region left out
    for number in 1..=10 {
        assert!(noticed(move |m| code_is_writable(&with(m, |n, r| if n == number { *r = Region::default() }))), "region {number}");
    }
}

/// Does region n have the byte and lack the permission?
fn lacks(machine: &Machine, n: usize, byte: u64) -> bool {
    let region = &machine.regions[n - 1];
    let has = extent(region_kind(n), region).is_some_and(|own| own.start <= byte as u128 && (byte as u128) < own.end);
    has && region.permission & granted(n) == 0
}

/// A region that lacks a permission is taken to have it, or one that breaks its rule to be its first byte.
#[test]
fn changed_regions_are_noticed() {
    for number in 1..=10 {
        let grant = move |m: &mut Machine| m.regions[number - 1].permission |= granted(number);
        let mend = move |m: &mut Machine| {
            let (kind, region) = (region_kind(number), &mut m.regions[number - 1]);
            if extent(kind, region).is_none() {
                let explicit = kind == RegionKind::Explicit;
                (region.bound, region.permission) = if explicit { (1, region.permission & 3) } else { (ALL, region.permission) };
            }
        };
        let changes: [Box<dyn Fn(&mut Machine)>; 2] = [Box::new(grant), Box::new(mend)];
        for (n, change) in changes.into_iter().enumerate() {
            let (mut counts, engine) = (Counts::default(), Changing(change));
            (0..8).for_each(|seed| compare(&Oracle, &engine, &mut Supply::new(7 + seed), &mut counts));
            assert!(counts.differing > 0, "region {number}, change {n}");
        }
    }
}

/// The oracle, which refuses with 4 what would be refused after a change.
struct Changing(Box<dyn Fn(&mut Machine)>);

impl Engine for Changing {
    fn title(&self) -> String {
        "changing".to_string()
    }
    fn decode_encode(&self, _word: u32) -> Option<(u64, u32)> {
        None
    }
    fn step(&self, machine: &mut Machine, memory: &mut [u8]) -> Option<(u64, u64)> {
        let mut changed = *machine;
        (self.0)(&mut changed);
        match oracle::overlap::locked_code_is_writable(&changed) {
            true => Some((4, 0)),
            false => Some(step(machine, memory)),
        }
    }
    fn run(&self, machine: &mut Machine, memory: &mut [u8], budget: u64) -> Option<(u64, u64, u64)> {
        Some(run(machine, memory, budget))
    }
    fn resume(&self, machine: &mut Machine, value: u64) -> Option<u64> {
        Some(resume(machine, value))
    }
    fn respond(&self, _sheet: &[u8]) -> Option<Vec<u8>> {
        None
    }
}

//! Document 02, Job 7: which region decides, accesses over two regions, the
//! choice of an h-word, setup lines of 34 fields.

mod common;
use common::*;
use oracle::compare::{compare_sheet, field_counts, fields_unmet, rounds, Counts, Engine, Oracle, H_ROUNDS};
use oracle::instruction::*;
use oracle::machine::{numbers_of_kind, region_kind, RegionKind, REGIONS};
use oracle::reach::{executable, readable, writable};
use oracle::supply::Supply;
use oracle::ten_regions::{aims, by_shape, compare, unmet, Aim};
use oracle::*;

fn region(base: u64, bound: u64, permission: u64) -> Region {
    Region { base, bound, permission }
}

fn mask(k: u32) -> u64 {
    ALL << k
}

/// In HFI mode, code below 1000 in region 3 unless given, no other region but these.
fn of(regions: &[(usize, Region)]) -> Machine {
    let mut machine = Machine { mode: 1, ..Machine::default() };
    machine.regions[2] = region(0, mask(12), 4);
    regions.iter().for_each(|(number, region)| machine.regions[number - 1] = *region);
    machine
}

/// A word at 0 in 3000 bytes.
fn at_zero(word: u32) -> Vec<u8> {
    memory(0x3000, 0, &[word])
}

#[test]
fn kinds() {
    assert_eq!(REGIONS, 10);
    assert_eq!(numbers_of_kind(RegionKind::Explicit), [1, 4, 5, 6]);
    assert_eq!(numbers_of_kind(RegionKind::ImplicitData), [2, 7, 8, 9]);
    assert_eq!(numbers_of_kind(RegionKind::ImplicitCode), [3, 10]);
    use RegionKind::{Explicit as E, ImplicitCode as C, ImplicitData as D};
    assert_eq!((1..=10).map(region_kind).collect::<Vec<_>>(), [E, D, C, E, E, E, D, D, D, C]);
    assert_eq!(std::mem::size_of::<Machine>(), 584);
}

/// "the lowest-numbered matching region of the kind decides, even if a later one would grant more"
#[test]
fn lowest_number_decides() {
    let (loads, stores) = (at_zero(load(LoadKind::Word, 7, 5, 0)), at_zero(store(StoreKind::Word, 7, 5, 0)));
    for (lower, higher) in [(2, 7), (2, 8), (2, 9), (7, 8), (7, 9), (8, 9)] {
        let of = |low: Region, high: Region| {
            let mut machine = of(&[(lower, low), (higher, high)]);
            machine.x[5] = 0x2010;
            machine
        };
        let block = |permission| region(0x2000, mask(8), permission);
        faults(of(block(1), block(3)), &stores, 16, lower as u64, 2, 0x2010);
        faults(of(block(2), block(3)), &loads, 16, lower as u64, 1, 0x2010);
        faults(of(block(0), block(3)), &loads, 16, lower as u64, 1, 0x2010);
        completes(of(block(3), block(0)), &stores);
        // broken, zero or elsewhere: the later one decides
        for other in [region(0x2008, mask(8), 0), region(0, 0, 3), region(0x2000, mask(8) ^ 1 << 40, 0), region(0x2100, mask(8), 0)] {
            completes(of(other, block(2)), &stores);
            faults(of(other, block(2)), &loads, 16, higher as u64, 1, 0x2010);
        }
        // none matches
        faults(of(region(0x2100, mask(8), 3), region(0x2200, mask(8), 3)), &loads, 16, 0, 1, 0x2010);
    }
}

/// "In HFI mode each byte is judged singly."
#[test]
fn accesses_over_two_regions() {
    for (first, second) in [(2, 7), (7, 2), (8, 9), (9, 8), (2, 9), (9, 2)] {
        for (kind, size) in [(StoreKind::Half, 2), (StoreKind::Word, 4), (StoreKind::Double, 8)] {
            for late in 1..size {
                let bytes = at_zero(store(kind, 6, 5, 0));
                let of = |one, two| {
                    let mut machine = of(&[(first, region(0x2000, mask(4), one)), (second, region(0x2010, mask(4), two))]);
                    (machine.x[5], machine.x[6]) = (0x2010 + late - size, ALL);
                    machine
                };
                let (_, after) = completes(of(2, 3), &bytes);
                let start = (0x2010 + late - size) as usize;
                assert!(after[start..start + size as usize].iter().all(|byte| *byte == 0xff));
                faults(of(3, 1), &bytes, 16, second as u64, 2, 0x2010);
                faults(of(1, 3), &bytes, 16, first as u64, 2, start as u64);
            }
        }
    }
}

/// A lower region inside a later one hides its own bytes alone.
#[test]
fn hidden_bytes() {
    let bytes = at_zero(store(StoreKind::Double, 6, 5, 0));
    for start in 0x2000..0x2040u64 {
        let mut machine = of(&[(7, region(0x2010, mask(4), 1)), (9, region(0x2000, mask(6), 3))]);
        machine.x[5] = start;
        let hidden = (start..start + 8).find(|byte| (0x2010..0x2020).contains(byte));
        let past = (start..start + 8).find(|byte| *byte == 0x2040);
        match hidden.map(|byte| (7, byte)).or(past.map(|byte| (0, byte))) {
            Some((number, byte)) => faults(machine, &bytes, 16, number, 2, byte),
            None => drop(completes(machine, &bytes)),
        }
    }
}

#[test]
fn fetches() {
    let nop = at_zero(addi(0, 0, 0));
    let block = |permission| region(0, mask(8), permission);
    completes(of(&[(3, block(4)), (10, block(0))]), &nop);
    faults(of(&[(3, block(0)), (10, block(4))]), &nop, 11, 3, 3, 0);
    for broken in [Region::default(), region(4, mask(8), 0), region(0x100, mask(8), 0)] {
        completes(of(&[(3, broken), (10, block(4))]), &nop);
        faults(of(&[(3, broken), (10, block(0))]), &nop, 11, 10, 3, 0);
    }
    faults(of(&[(3, Region::default()), (2, block(3)), (1, region(0, 0x100, 3))]), &nop, 11, 0, 3, 0);
    // two bytes in each
    for (first, second) in [(3, 10), (10, 3)] {
        let of = |one, two| of(&[(3, Region::default()), (first, region(0, mask(1), one)), (second, region(2, mask(1), two))]);
        completes(of(4, 4), &nop);
        faults(of(4, 0), &nop, 11, second as u64, 3, 2);
        faults(of(0, 4), &nop, 11, first as u64, 3, 0);
    }
    for byte in 0..4 {
        faults(of(&[(3, region(byte, mask(0), 0)), (10, block(4))]), &nop, 11, 3, 3, byte);
    }
}

/// "an h-word asks only the region it chooses"; "an explicit fault records the region chosen", also a broken or zero one.
#[test]
fn choices() {
    for number in [1, 4, 5, 6u64] {
        let place = number as usize;
        let own = region(0x2000, 16, 3);
        let words = [hload_through(number, LoadKind::Double, 7, 9, 1), hstore_through(number, StoreKind::Double, 7, 9, 1)];
        for (word, op) in words.into_iter().zip([1, 2]) {
            let bytes = at_zero(word);
            let by = |rs1: u64, regions: &[(usize, Region)]| {
                let mut machine = of(regions);
                machine.x[9] = rs1;
                machine
            };
            completes(by(7, &[(place, own)]), &bytes);
            faults(by(8, &[(place, own)]), &bytes, 16, number, op, 0x2010);
            faults(by(ALL, &[(place, own)]), &bytes, 16, number, op, 0x2000);
            faults(by(3, &[]), &bytes, 16, number, op, 4);
            faults(by(3, &[(place, region(0x2000, 0, 3))]), &bytes, 16, number, op, 0x2004);
            faults(by(3, &[(place, region(0x2000, 0x10000, 11))]), &bytes, 16, number, op, 0x2004);
            faults(by(3, &[(place, region(0x2000, 16, 3 - op))]), &bytes, 16, number, op, 0x2004);
            // all others grant
            let others: Vec<(usize, Region)> = [1, 4, 5, 6].map(|n| (n, if n == place { region(0x2000, 16, 0) } else { own })).to_vec();
            faults(by(3, &others), &bytes, 16, number, op, 0x2004);
            faults(by(3, &[(2, region(0x2000, mask(8), 3)), (7, region(0, mask(12), 3))]), &bytes, 16, number, op, 4);
            stops(Machine { mode: 0, ..by(7, &[(place, own)]) }, &bytes, 14, 0);
        }
    }
}

/// Each of the 1,024 pairs of register fields, as a load and as a store.
#[test]
fn every_register_field() {
    for rs1 in 0..32u32 {
        for other in 0..32u32 {
            let choice = rs1 / 16 * 2 + other / 16;
            let number = [1, 4, 5, 6][choice as usize];
            let mut machine = of(&[1, 4, 5, 6].map(|n| (n, region(0x2000 + 0x100 * n as u64, 0x100, 3))));
            (1..32).for_each(|n| machine.x[n] = n as u64);
            let (low1, low) = ((rs1 % 16) as u64, (other % 16) as usize);
            let address = 0x2000 + 0x100 * number + low1 + 2;
            let mut bytes = at_zero(2 << 20 | rs1 << 15 | 4 << 12 | other << 7 | 0x0b); // hlbu
            bytes[address as usize] = 0xa5;
            let mut expected = Machine { pc: 4, ..machine };
            expected.set(low as u64, 0xa5);
            assert_eq!(completes(machine, &bytes).0, expected);
            let bytes = at_zero(other << 20 | rs1 << 15 | 2 << 7 | 0x2b); // hsb
            let (after, stored) = completes(machine, &bytes);
            assert_eq!(after, Machine { pc: 4, ..machine });
            let mut expected = bytes.clone();
            expected[address as usize] = low as u8;
            assert_eq!(stored, expected);
        }
    }
}

/// "Readable, writable and executable follow these rules"
#[test]
fn reach_of_ten() {
    let machine = of(&[
        (2, region(0x2000, mask(4), 1)),
        (7, region(0x2000, mask(5), 2)),
        (9, region(0x2000, mask(6), 3)),
        (3, region(0x20, mask(5), 0)),
        (10, region(0, mask(6), 4)),
        (4, region(0x3000, 8, 1)),
        (6, region(0x3004, 8, 2)),
    ]);
    for (byte, r, w, x) in [
        (0x1fff, false, false, false),
        (0x2000, true, false, false),
        (0x200f, true, false, false),
        (0x2010, false, true, false),
        (0x201f, false, true, false),
        (0x2020, true, true, false),
        (0x203f, true, true, false),
        (0x2040, false, false, false),
        (0, false, false, true),
        (0x1f, false, false, true),
        (0x20, false, false, false),
        (0x3f, false, false, false),
        (0x3000, true, false, false),
        (0x3004, true, true, false),
        (0x3007, true, true, false),
        (0x3008, false, true, false),
        (0x300c, false, false, false),
    ] {
        assert_eq!((readable(&machine, byte), writable(&machine, byte), executable(&machine, byte)), (r, w, x), "{byte:x}");
    }
}

fn answer(sheet: &str) -> String {
    String::from_utf8(respond(sheet.as_bytes())).unwrap()
}

/// "A setup line has 13 fields, the other regions then being zero, or 34, with regions 1 to 10 in order and the budget last."
#[test]
fn setup_lines() {
    let three = "0,1,0,0,0,0,0,0,0,0,fffffffffffff000,4";
    let line = |more: &str, budget: &str| format!("{three}{more},{budget}\n0,00000073\n");
    let zeros = ",0,0,0".repeat(7);
    for budget in ["", "a", "c350"] {
        assert_eq!(answer(&line("", budget)), "18,0,0,0,0,0,0,0,0\n");
        assert_eq!(answer(&line(&zeros, budget)), "18,0,0,0,0,0,0,0,0\n");
    }
    for fields in (1..=45).filter(|fields| ![13, 34].contains(fields)) {
        assert_eq!(answer(&format!("{}\n", vec!["0"; fields].join(","))), "sheet,32,1\n");
    }
    for place in 0..34 {
        let mut fields = vec!["0"; 34];
        fields[place] = "";
        let told = if place == 33 { "11,0,0,0,0,1,0,3,0\n" } else { "sheet,33,1\n" };
        assert_eq!(answer(&format!("{}\n", fields.join(","))), told, "field {place}");
        fields[place] = "100";
        let over = match place {
            1 | 5 | 8 | 11 | 14 | 17 | 20 | 23 | 26 | 29 | 32 => "sheet,34,1\n",
            33 => "11,0,", // a budget of 100
            _ => "21,0,",
        };
        assert!(answer(&format!("{}\n", fields.join(","))).starts_with(over), "field {place}");
        fields[place] = "00000000000000000";
        assert_eq!(answer(&format!("{}\n", fields.join(","))), "sheet,33,1\n");
    }
    // each region is the one of its place
    let regions = (1..=10).map(|n| format!(",{n}00,{n},{}", if n == 3 || n == 10 { 4 } else { 1 })).collect::<String>();
    let sheet = oracle::sheet::read_sheet(format!("8,2,40{regions},7\n").as_bytes()).unwrap();
    assert_eq!(sheet.budget, 7);
    for (n, region) in sheet.machine.regions.iter().enumerate() {
        let digits = format!("{}00", n + 1);
        assert_eq!(region.base, u64::from_str_radix(&digits, 16).unwrap());
        assert_eq!(region.permission, if n == 2 || n == 9 { 4 } else { 1 });
    }
    // fault region 10 prints as a
    let ten = format!("2000,0,0{},2000,fffffffffffff000,0,\n", ",0,0,0".repeat(9));
    assert_eq!(answer(&ten), "11,0,2000,0,0,1,a,3,2000\n");
}

#[test]
fn every_aim_is_met() {
    for seed in 0..20 {
        let mut counts = Counts::default();
        compare(&Oracle, &Oracle, &mut Supply::new(seed), &mut counts);
        assert!(counts.differences.is_empty(), "{:?}", counts.differences);
        assert_eq!(unmet(&counts.ten_regions), Vec::<String>::new());
        assert_eq!(by_shape(&counts.ten_regions).values().sum::<u64>(), aims().len() as u64);
    }
    assert_eq!(aims().len(), 12 * 3 * 2 + 6 * 6 * 2 + 2 * 3 + 6 + 4 * 16 * 2);
    for seed in 0..4 {
        let mut counts = Counts::default();
        rounds(&Oracle, &Oracle, 200 + seed, H_ROUNDS, &mut counts);
        assert_eq!(fields_unmet(&counts), Vec::<String>::new());
    }
    assert_eq!(fields_unmet(&Counts::default()).len(), 6);
}

/// The oracle, on another machine: the regions that it sees are changed, and put back afterwards.
struct Seeing(fn(&mut Machine));

impl Seeing {
    fn made<T>(&self, machine: &mut Machine, call: impl FnOnce(&mut Machine) -> T) -> T {
        let before = *machine;
        (self.0)(machine);
        let answer = call(machine);
        machine.regions = before.regions;
        answer
    }
}

impl Engine for Seeing {
    fn title(&self) -> String {
        "seeing".to_string()
    }
    fn decode_encode(&self, _word: u32) -> Option<(u64, u32)> {
        None
    }
    fn step(&self, machine: &mut Machine, memory: &mut [u8]) -> Option<(u64, u64)> {
        Some(self.made(machine, |m| step(m, memory)))
    }
    fn run(&self, machine: &mut Machine, memory: &mut [u8], budget: u64) -> Option<(u64, u64, u64)> {
        Some(self.made(machine, |m| run(m, memory, budget)))
    }
    fn resume(&self, _machine: &mut Machine, _value: u64) -> Option<u64> {
        None
    }
    fn respond(&self, _sheet: &[u8]) -> Option<Vec<u8>> {
        None
    }
}

/// Two regions exchanged, or one unset, is noticed for every number and every pair of a kind.
#[test]
fn other_orders_are_noticed() {
    let noticed = |change: fn(&mut Machine)| {
        let mut counts = Counts::default();
        compare(&Oracle, &Seeing(change), &mut Supply::new(3), &mut counts);
        counts.differing > 0
    };
    assert!(!noticed(|_| {}));
    let changes: [fn(&mut Machine); 14] = [
        |m| m.regions.swap(1, 6),
        |m| m.regions.swap(6, 7),
        |m| m.regions.swap(7, 8),
        |m| m.regions.swap(1, 8),
        |m| m.regions.swap(2, 9),
        |m| m.regions.swap(0, 3),
        |m| m.regions.swap(3, 4),
        |m| m.regions.swap(4, 5),
        |m| m.regions[3] = Region::default(),
        |m| m.regions[5] = Region::default(),
        |m| m.regions[6] = Region::default(),
        |m| m.regions[8] = Region::default(),
        |m| m.regions[9] = Region::default(),
        // the first that grants decides, not the first that matches
        |m| (0..10).filter(|n| m.regions[*n].permission == 0).collect::<Vec<_>>().iter().for_each(|n| m.regions[*n] = Region::default()),
    ];
    for (n, change) in changes.into_iter().enumerate() {
        assert!(noticed(change), "change {n}");
    }
}

/// A reader that takes other numbers of fields is noticed.
#[test]
fn other_fields_are_noticed() {
    struct Padding;
    impl Engine for Padding {
        fn title(&self) -> String {
            "padding".to_string()
        }
        fn decode_encode(&self, _word: u32) -> Option<(u64, u32)> {
            None
        }
        fn step(&self, _machine: &mut Machine, _memory: &mut [u8]) -> Option<(u64, u64)> {
            None
        }
        fn run(&self, _machine: &mut Machine, _memory: &mut [u8], _budget: u64) -> Option<(u64, u64, u64)> {
            None
        }
        fn resume(&self, _machine: &mut Machine, _value: u64) -> Option<u64> {
            None
        }
        /// 16 fields are taken as 13.
        fn respond(&self, sheet: &[u8]) -> Option<Vec<u8>> {
            let commas = sheet.iter().filter(|byte| **byte == b',').count();
            let text = String::from_utf8_lossy(sheet).to_string();
            Some(respond(if commas == 15 { text.splitn(4, ',').last().unwrap().as_bytes() } else { sheet }))
        }
    }
    let mut counts = Counts::default();
    field_counts(&Oracle, &Padding, &mut Supply::new(4), &mut counts);
    assert_eq!(counts.differing, 2);
    assert_eq!(compare_sheet(&Oracle, &Oracle, b"0\n", &mut counts), "sheet,32,1\n");
}

#[test]
fn aims_name_every_field() {
    let chosen = aims().into_iter().filter(|aim| matches!(aim, Aim::Chosen { .. })).count();
    assert_eq!(chosen, 128);
}

//! Stored turns (`crates/turns`): records of slots over one memory, each a
//! sequence of turns. A directed record carries whose turn each is and its stop
//! as read off Job 9 of document 02, and the oracle has to answer so: it guards
//! against slips. The random ones come from the supply.

use crate::instruction::{encode, HfiKind, ImmediateKind, Instruction, LoadKind, StoreKind, SystemKind};
use crate::machine::{with_others_zero, Machine, Region};
use crate::scheduler::{put, turn, Answer, Scheduler, ALLOWANCE_LIMIT, SLOTS};
use crate::supply::Supply;
use crate::turns::{any_allowance, stopped_stop};

const ALL: u64 = u64::MAX;

/// The bytes that there is room for; the first `length` of them are lent.
const ROOM: usize = 256;
/// Those of them that a record places, from 0 on.
const PLACED: usize = 64;
const MOST_TURNS: usize = 6;
const NAME: usize = 40;

/// After turn number `after` the machine of slot `from`, as the record has it,
/// is put into slot `into`.
#[derive(Clone, Copy)]
struct Put {
    after: u64,
    from: u64,
    into: u64,
}

#[derive(Clone)]
pub struct Record {
    name: String,
    scheduler: Scheduler,
    placed: [u8; PLACED],
    length: usize,
    allowances: Vec<u64>,
    put: Option<Put>,
    /// Slot and stop of each turn, of a directed one.
    told: Option<Vec<(u64, u64)>>,
}

impl Record {
    /// The line that stands for it in `crates/turns/data/turns`.
    fn written(&self) -> String {
        assert!(self.name.len() < NAME && !self.name.contains(' '), "{}", self.name);
        let mut numbers = vec![self.scheduler.count, self.scheduler.place, self.scheduler.total];
        for slot in &self.scheduler.slots {
            let m = &slot.machine;
            numbers.extend([slot.stop, m.pc, m.x[5], m.x[6], m.options, m.mode]);
            m.regions[..3].iter().for_each(|region| numbers.extend([region.base, region.bound, region.permission]));
            assert!(*m == machine(m.pc, m.x[5], m.x[6], m.options, m.mode, [m.regions[0], m.regions[1], m.regions[2]]));
        }
        numbers.extend(self.placed.chunks(8).map(|double| u64::from_le_bytes(double.try_into().unwrap())));
        numbers.extend([self.length as u64, self.allowances.len() as u64]);
        numbers.extend((0..MOST_TURNS).map(|i| self.allowances.get(i).copied().unwrap_or(0)));
        numbers.extend(self.put.map_or([0, 0, 0], |put| [put.after, put.from, put.into]));
        let digits: String = numbers.iter().map(|number| format!("{number:016x}")).collect();
        format!("{:NAME$}{digits}\n", self.name)
    }

    /// What `crates/turns` prints of it.
    fn printed(&self) -> String {
        let (mut scheduler, mut memory) = (self.scheduler, vec![0; ROOM]);
        memory[..PLACED].copy_from_slice(&self.placed);
        let (mut text, mut answers) = (String::new(), Vec::new());
        for (i, allowance) in self.allowances.iter().enumerate() {
            let Answer { slot, stop, count, address } = turn(&mut scheduler, &mut memory[..self.length], *allowance);
            answers.push((slot, stop));
            text.push_str(&format!("{},{slot},{stop},{count:x},{address:x}{}\n", self.name, state(&scheduler)));
            if let Some(Put { from, into, .. }) = self.put.filter(|put| put.after == i as u64 + 1) {
                let done = put(&mut scheduler, into, &self.scheduler.slot(from).machine);
                text.push_str(&format!("put,{into:x},{}{}\n", done as u64, state(&scheduler)));
            }
        }
        if let Some(told) = &self.told {
            assert_eq!(answers, *told, "{}", self.name);
        }
        text.push_str("memory");
        for (i, double) in memory.chunks(8).enumerate() {
            let value = u64::from_le_bytes(double.try_into().unwrap());
            if value != 0 {
                text.push_str(&format!(",{:x},{value:x}", 8 * i));
            }
        }
        text.push('\n');
        text
    }
}

/// Place, total, and stop, pc and x5 of each slot.
fn state(scheduler: &Scheduler) -> String {
    let mut text = format!(",{:x},{:x}", scheduler.place, scheduler.total);
    for slot in &scheduler.slots {
        text.push_str(&format!(",{},{:x},{:x}", slot.stop, slot.machine.pc, slot.machine.x[5]));
    }
    text
}

/// The records and their answers.
pub fn stored() -> (String, String) {
    let all: Vec<Record> = directed().into_iter().chain(random()).collect();
    assert!(all.iter().enumerate().all(|(i, a)| all[..i].iter().all(|b| a.name != b.name)));
    (all.iter().map(Record::written).collect(), all.iter().map(Record::printed).collect())
}

// ---- machines and code

fn machine(pc: u64, x5: u64, x6: u64, options: u64, mode: u64, regions: [Region; 3]) -> Machine {
    let mut machine = Machine { pc, options, mode, regions: with_others_zero(regions), ..Machine::default() };
    (machine.x[5], machine.x[6]) = (x5, x6);
    machine
}

/// Slot n has 16 bytes of code from here on,
fn code(n: u64) -> u64 {
    16 * (n - 1)
}

/// and 32 bytes of data.
fn data(n: u64) -> u64 {
    128 + 32 * (n - 1)
}

/// The machine of slot n: in locked HFI mode, with its own code and data; x6
/// has the address of the data.
fn good(n: u64) -> Machine {
    let explicit = Region { base: data(n), bound: 32, permission: 3 };
    let implicit = Region { base: data(n), bound: ALL << 5, permission: 3 };
    let executable = Region { base: code(n), bound: ALL << 4, permission: 4 };
    machine(code(n), 0x100 * n, data(n), 1, 1, [explicit, implicit, executable])
}

fn word(instruction: Instruction) -> u32 {
    encode(&instruction).expect("in range")
}

fn add(value: i64) -> u32 {
    word(Instruction::Immediate { kind: ImmediateKind::Addi, rd: 5, rs1: 5, value })
}

fn jump(offset: i64) -> u32 {
    word(Instruction::Jal { rd: 0, offset })
}

fn store() -> u32 {
    word(Instruction::Store { kind: StoreKind::Double, rs1: 6, rs2: 5, offset: 0 })
}

fn load() -> u32 {
    word(Instruction::Load { kind: LoadKind::Double, rd: 5, rs1: 6, offset: 0 })
}

fn system(kind: SystemKind) -> u32 {
    word(Instruction::System { kind })
}

fn hfi(kind: HfiKind) -> u32 {
    word(Instruction::Hfi { kind, rd: 0, rs1: 0, rs2: 0 })
}

/// Counts in x5 and stores it, for ever.
fn work() -> [u32; 4] {
    [add(1), store(), add(1), jump(-12)]
}

impl Record {
    /// So many slots that work; none has had a turn.
    fn of(name: impl Into<String>, count: u64) -> Record {
        let mut scheduler = Scheduler::of(&[1, 2, 3, 4].map(good));
        scheduler.count = count;
        let mut record = Record {
            name: name.into(),
            scheduler,
            placed: [0; PLACED],
            length: ROOM,
            allowances: Vec::new(),
            put: None,
            told: None,
        };
        (1..=SLOTS as u64).for_each(|n| record.place(n, &work()));
        record
    }

    /// The code of slot n.
    fn place(&mut self, n: u64, words: &[u32; 4]) {
        for (i, word) in words.iter().enumerate() {
            let at = code(n) as usize + 4 * i;
            self.placed[at..at + 4].copy_from_slice(&word.to_le_bytes());
        }
    }

    fn stop(&mut self, n: u64, stop: u64) {
        self.scheduler.slot_mut(n).stop = stop;
    }

    fn machine(&mut self, n: u64) -> &mut Machine {
        &mut self.scheduler.slot_mut(n).machine
    }

    /// Its turns: the allowances, and slot and stop of each.
    fn told(mut self, turns: &[(u64, (u64, u64))]) -> Record {
        self.allowances = turns.iter().map(|turn| turn.0).collect();
        self.told = Some(turns.iter().map(|turn| turn.1).collect());
        self
    }

    fn put(mut self, after: u64, from: u64, into: u64) -> Record {
        self.put = Some(Put { after, from, into });
        self
    }

    /// Makes slot n one that is refused with 3, 4 or 52.
    fn spoil(&mut self, n: u64, way: Way) {
        let m = self.machine(n);
        match way {
            Way::Options => m.options = 17,
            Way::Mode => m.mode = 3,
            Way::Permission => m.regions[1].permission = 4,
            Way::DataOverCode => m.regions[1] = Region { base: code(n), bound: ALL << 4, permission: 2 },
            Way::ExplicitOverCode => m.regions[0] = Region { base: code(n) + 15, bound: 1, permission: 2 },
            Way::Unlocked => m.options = 0,
            Way::Outside => m.mode = 0,
        }
    }
}

/// What makes a machine refused.
#[derive(Clone, Copy, Debug)]
enum Way {
    Options,
    Mode,
    Permission,
    DataOverCode,
    ExplicitOverCode,
    Unlocked,
    Outside,
}

const WAYS: [Way; 7] =
    [Way::Options, Way::Mode, Way::Permission, Way::DataOverCode, Way::ExplicitOverCode, Way::Unlocked, Way::Outside];

impl Way {
    fn number(self) -> u64 {
        match self {
            Way::Options | Way::Mode | Way::Permission => 3,
            Way::DataOverCode | Way::ExplicitOverCode => 4,
            Way::Unlocked | Way::Outside => 52,
        }
    }
}

/// One of each number.
const ONE_OF_EACH: [Way; 3] = [Way::Options, Way::DataOverCode, Way::Unlocked];

// ---- directed

/// Those of Job 9's sentences.
pub fn directed() -> Vec<Record> {
    let mut all = Vec::new();
    all.extend(rounds());
    all.extend(places());
    all.extend(passed_over());
    all.extend(sets());
    all.extend(totals());
    all.extend(stops());
    all.extend(refused());
    all.extend(orders());
    all.extend(left_out());
    all.extend(puts());
    all.extend(shared());
    all
}

/// "the first deck not stopped, from the place on and round to the first; then
/// the place becomes the deck after that one, likewise round": each count with
/// each place in it.
fn rounds() -> Vec<Record> {
    let mut all = Vec::new();
    for count in 1..=4 {
        for place in 1..=count {
            let mut record = Record::of(format!("round-of-{count}-from-{place}"), count);
            record.scheduler.place = place;
            let turns: Vec<_> = (0..6).map(|i| (3 + i, ((place - 1 + i) % count + 1, 21))).collect();
            all.push(record.told(&turns));
        }
    }
    all
}

/// "a place outside the deck count is taken as 1"
fn places() -> Vec<Record> {
    let mut all = Vec::new();
    for count in 1..=4 {
        for (name, place) in [("0", 0), ("past-the-last", count + 1), ("2^64-1", ALL), ("2^32-past", (1 << 32) + count)] {
            let mut record = Record::of(format!("place-{name}-of-{count}"), count);
            record.scheduler.place = place;
            all.push(record.told(&[(2, (1, 21)), (2, (1 % count + 1, 21))]));
        }
    }
    all
}

/// "A deck that stops with anything but 21 is passed over", by each stop.
fn passed_over() -> Vec<Record> {
    let stops = [1, 2, 3, 4, 10, 11, 12, 13, 16, 17, 18, 19, 20, 22, 23, 25, 52, 1 << 32, (1 << 32) + 21, ALL];
    let mut all = Vec::new();
    for (i, stop) in stops.into_iter().enumerate() {
        let (count, n) = (2 + i as u64 % 3, 1 + i as u64 % 2);
        let mut record = Record::of(format!("passed-over-{stop:x}"), count);
        record.stop(n, stop);
        record.scheduler.place = n;
        // The others in their order, from n on.
        let others: Vec<u64> = (0..count).map(|k| (n - 1 + k) % count + 1).filter(|k| *k != n).collect();
        let turns: Vec<_> = (0..4).map(|k| (5, (others[k % others.len()], 21))).collect();
        all.push(record.told(&turns));
    }
    let mut spent = Record::of("not-passed-over-21", 2);
    spent.stop(1, 21);
    all.push(spent.told(&[(5, (1, 21)), (5, (2, 21))]));
    all
}

/// Four slots of which any are stopped; "With all decks stopped a turn makes
/// no run, changes nothing and answers 0 for deck, stop, count and address."
fn sets() -> Vec<Record> {
    let mut all = Vec::new();
    for set in 1..16u64 {
        let mut record = Record::of(format!("stopped-{set:04b}"), 4);
        let stopped = |n: u64| set >> (n - 1) & 1 == 1;
        (1..=4).filter(|n| stopped(*n)).for_each(|n| record.stop(n, 18));
        record.scheduler.place = 3;
        record.scheduler.total = 0x77;
        let order: Vec<u64> = [3, 4, 1, 2].into_iter().filter(|n| !stopped(*n)).collect();
        let turns: Vec<_> = (0..4).map(|i| (4, order.get(i % order.len().max(1)).map_or((0, 0), |n| (*n, 21)))).collect();
        all.push(record.told(&turns));
    }
    for (count, place) in [(1, 0), (1, 1), (2, ALL), (3, 2)] {
        let mut record = Record::of(format!("all-of-{count}-stopped-place-{place:x}"), count);
        (1..=count).for_each(|n| record.stop(n, 20));
        (record.scheduler.place, record.scheduler.total) = (place, ALL);
        all.push(record.told(&[(1, (0, 0)), (ALLOWANCE_LIMIT, (0, 0)), (0, (0, 51))]));
    }
    all
}

/// "each turn adds its run's count, modulo 2^64"
fn totals() -> Vec<Record> {
    let turns = [(3, (1, 21)), (3, (2, 21)), (1, (1, 21))];
    [("0", 0), ("2^64-1", ALL), ("2^64-3", ALL - 2), ("2^64-4", ALL - 3), ("2^64-6", ALL - 5), ("2^32-1", 0xffff_ffff)]
        .into_iter()
        .map(|(name, total)| {
            let mut record = Record::of(format!("total-{name}"), 2);
            record.scheduler.total = total;
            record.told(&turns)
        })
        .collect()
}

/// A run's end: its stop, the word at the end of the code, and what x6 holds.
fn ends() -> Vec<(&'static str, u64, u32, Option<u64>)> {
    let to_x6 = word(Instruction::Jalr { rd: 0, rs1: 6, offset: 0 });
    vec![
        ("odd", 10, 0, None),
        ("refused-fetch", 11, to_x6, Some(64)),
        ("illegal", 13, 0, None),
        ("refused-store", 16, store(), Some(0)),
        ("refused-load", 16, load(), Some(0)),
        ("ecall", 18, system(SystemKind::Ecall), None),
        ("ebreak", 19, system(SystemKind::Ebreak), None),
        ("exit", 20, hfi(HfiKind::Exit), None),
        ("redirected", 20, system(SystemKind::Ecall), None),
        ("spent", 21, jump(0), None),
        ("enter", 23, hfi(HfiKind::Enter), None),
        ("reset", 25, hfi(HfiKind::Reset), None),
    ]
}

/// Slot n ends so, after two steps unless its pc is odd.
fn end(record: &mut Record, n: u64, (name, stop, last, operand): (&str, u64, u32, Option<u64>)) {
    record.place(n, &[add(1), add(2), last, last]);
    let m = record.machine(n);
    m.x[6] = operand.unwrap_or(m.x[6]);
    m.pc += (stop == 10) as u64;
    m.options |= if name == "redirected" { 2 } else { 0 };
}

/// Each stop of a run in a turn: of a slot alone, and of one of four, which is
/// passed over then.
fn stops() -> Vec<Record> {
    let mut all = Vec::new();
    for (i, ending) in ends().into_iter().enumerate() {
        let (name, stop) = (ending.0, ending.1);
        let mut alone = Record::of(format!("stop-{stop}-{name}-alone"), 1);
        end(&mut alone, 1, ending);
        let after = if stop == 21 { (1, 21) } else { (0, 0) };
        all.push(alone.told(&[(9, (1, stop)), (9, after)]));
        let n = 1 + i as u64 % 4;
        let mut among = Record::of(format!("stop-{stop}-{name}-among-4"), 4);
        end(&mut among, n, ending);
        let mut turns: Vec<_> = (1..=4).map(|k| (9, (k, if k == n { stop } else { 21 }))).collect();
        let left: Vec<u64> = (1..=4).filter(|k| *k != n || stop == 21).collect();
        turns.extend([(9, (left[0], 21)), (9, (left[1], 21))]);
        all.push(among.told(&turns));
    }
    all.extend(absent());
    all
}

/// 12 and 17, by memories that end early.
fn absent() -> Vec<Record> {
    let mut all = Vec::new();
    for (length, turns) in [(0, [(9, (1, 12)), (9, (2, 12)), (9, (0, 0))]), (2, [(9, (1, 12)), (9, (2, 12)), (9, (0, 0))])] {
        let mut record = Record::of(format!("stop-12-length-{length}"), 2);
        record.length = length;
        all.push(record.told(&turns));
    }
    // The second slot has two words, the third none.
    let mut fetches = Record::of("stop-12-length-24", 3);
    (1..=3).for_each(|n| fetches.place(n, &[add(1), add(2), add(3), jump(-12)]));
    fetches.length = 24;
    all.push(fetches.told(&[(9, (1, 21)), (9, (2, 12)), (9, (3, 12)), (9, (1, 21))]));
    // The first slot's data is in memory, the second's in part, the third's not.
    let mut stores = Record::of("stop-17-length-164", 3);
    stores.length = 164;
    all.push(stores.told(&[(9, (1, 21)), (9, (2, 17)), (9, (3, 17)), (9, (1, 21))]));
    let mut loads = Record::of("stop-17-load-length-255", 4);
    loads.length = 255;
    loads.machine(4).x[6] = 248;
    loads.place(4, &[add(1), load(), add(1), jump(-12)]);
    loads.scheduler.place = 4;
    all.push(loads.told(&[(9, (4, 17)), (9, (1, 21)), (9, (2, 21)), (9, (3, 21)), (9, (1, 21))]));
    all
}

/// Each refusal by itself, and the edges beside it; a turn that is not refused
/// goes on from what was there before.
fn refused() -> Vec<Record> {
    let mut all = Vec::new();
    for count in [0, 5, ALL, (1 << 32) + 1] {
        all.push(Record::of(format!("count-{count:x}"), count).told(&[(1, (0, 50)), (9, (0, 50))]));
    }
    for allowance in [0, ALLOWANCE_LIMIT + 1, ALL, (1 << 32) + 1] {
        let record = Record::of(format!("allowance-{allowance:x}"), 2);
        all.push(record.told(&[(5, (1, 21)), (allowance, (0, 51)), (1, (2, 21)), (allowance, (0, 51)), (2, (1, 21))]));
    }
    let longest = Record::of("allowance-2710", 2);
    all.push(longest.told(&[(ALLOWANCE_LIMIT, (1, 21)), (1, (2, 21)), (ALLOWANCE_LIMIT - 1, (1, 21))]));
    for (i, way) in WAYS.into_iter().enumerate() {
        let n = 1 + i as u64 % 4;
        let mut record = Record::of(format!("refused-{}-{way:?}-slot-{n}", way.number()), 4);
        record.spoil(n, way);
        all.push(record.told(&[(5, (0, way.number())), (9, (0, way.number()))]));
    }
    all
}

/// "the order is 1, 50, 51, then deck by deck from 1, stopped ones left out,
/// 3, 4, 52"
fn orders() -> Vec<Record> {
    let mut all = Vec::new();
    all.push(Record::of("50-before-51", 0).told(&[(0, (0, 50))]));
    for way in ONE_OF_EACH {
        let number = way.number();
        let mut record = Record::of(format!("50-51-before-{number}"), 5);
        record.spoil(1, way);
        all.push(record.clone().told(&[(5, (0, 50)), (0, (0, 50))]));
        record.name = format!("51-before-{number}");
        record.scheduler.count = 1;
        all.push(record.told(&[(0, (0, 51)), (ALLOWANCE_LIMIT + 1, (0, 51)), (5, (0, number))]));
    }
    // Slot by slot: the first one's number, whatever the second's is, whoever's turn it is.
    for first in ONE_OF_EACH {
        for second in ONE_OF_EACH {
            let mut record = Record::of(format!("slot-2-{}-before-slot-3-{}", first.number(), second.number()), 4);
            record.spoil(2, first);
            record.spoil(3, second);
            record.scheduler.place = 3;
            all.push(record.told(&[(5, (0, first.number()))]));
        }
    }
    // In one machine; 4 is asked in locked HFI mode alone.
    for (first, second, number) in [
        (Way::Permission, Way::ExplicitOverCode, 3),
        (Way::Permission, Way::Unlocked, 3),
        (Way::Mode, Way::ExplicitOverCode, 3),
        (Way::DataOverCode, Way::Unlocked, 52),
        (Way::ExplicitOverCode, Way::Outside, 52),
    ] {
        let mut record = Record::of(format!("{first:?}-and-{second:?}"), 2);
        record.spoil(1, first);
        record.spoil(1, second);
        all.push(record.told(&[(5, (0, number))]));
    }
    all
}

/// "stopped ones left out", and slots past the count.
fn left_out() -> Vec<Record> {
    let mut all = Vec::new();
    for way in ONE_OF_EACH {
        let number = way.number();
        let mut stopped = Record::of(format!("stopped-{number}-left-out"), 2);
        stopped.spoil(1, way);
        stopped.stop(1, 13);
        all.push(stopped.told(&[(5, (2, 21)), (5, (2, 21))]));
        let mut past = Record::of(format!("past-the-count-{number}-left-out"), 2);
        past.spoil(3, way);
        all.push(past.told(&[(5, (1, 21)), (5, (2, 21)), (5, (1, 21))]));
        let mut none = Record::of(format!("all-stopped-{number}-left-out"), 1);
        none.spoil(1, way);
        none.stop(1, number);
        all.push(none.told(&[(5, (0, 0))]));
        // One that had a turn before is asked again.
        let mut spent = Record::of(format!("spent-{number}-asked"), 2);
        spent.spoil(2, way);
        spent.stop(2, 21);
        all.push(spent.told(&[(5, (0, number))]));
    }
    all
}

/// "until the main loop puts a machine there again"
fn puts() -> Vec<Record> {
    let ecall = ("ecall", 18, system(SystemKind::Ecall), None);
    let stopping = |name: &str, count: u64| {
        let mut record = Record::of(name, count);
        end(&mut record, 1, ecall);
        record
    };
    let mut all = vec![
        stopping("put-again", 1).put(2, 1, 1).told(&[(9, (1, 18)), (9, (0, 0)), (9, (1, 18)), (9, (0, 0))]),
        stopping("put-again-of-2", 2).put(2, 1, 1).told(&[(9, (1, 18)), (9, (2, 21)), (9, (1, 18)), (9, (2, 21)), (9, (2, 21))]),
        stopping("put-another's", 2).put(2, 2, 1).told(&[(9, (1, 18)), (9, (2, 21)), (9, (1, 21)), (9, (2, 21))]),
        stopping("put-into-one-that-runs", 2).put(3, 1, 2).told(&[(9, (1, 18)), (9, (2, 21)), (9, (2, 21)), (9, (2, 18)), (9, (0, 0))]),
        stopping("put-past-the-count", 2).put(1, 1, 4).told(&[(9, (1, 18)), (9, (2, 21)), (9, (2, 21))]),
    ];
    for into in [0, 5, ALL, (1 << 32) + 1] {
        let record = stopping(&format!("put-into-{into:x}"), 1).put(1, 1, into);
        all.push(record.told(&[(9, (1, 18)), (9, (0, 0))]));
    }
    for way in ONE_OF_EACH {
        let mut record = stopping(&format!("put-one-that-{}-refuses", way.number()), 2).put(2, 4, 1);
        record.spoil(4, way);
        all.push(record.told(&[(9, (1, 18)), (9, (2, 21)), (9, (0, way.number()))]));
    }
    all
}

/// Slots that share bytes: what one stores another loads; and one that may only
/// read them is refused a store.
fn shared() -> Vec<Record> {
    let table = |permission| Region { base: data(1), bound: ALL << 5, permission };
    let mut read = Record::of("reads-what-another-stored", 2);
    read.place(2, &[load(), add(1), jump(0), 0]);
    read.machine(2).regions[1] = table(1);
    read.machine(2).x[6] = data(1);
    let mut write = Record::of("may-only-read", 2);
    write.machine(2).regions[1] = table(1);
    write.machine(2).x[6] = data(1);
    let mut both = Record::of("both-store", 2);
    both.machine(2).regions[1] = table(3);
    both.machine(2).x[6] = data(1);
    let mut h_words = Record::of("h-words", 2);
    h_words.place(1, &h_work());
    h_words.place(2, &h_work());
    h_words.machine(1).x[6] = 24;
    h_words.machine(2).x[6] = 25;
    // A slot whose code another one writes.
    let mut code_of = Record::of("stores-into-another's-code", 2);
    code_of.machine(2).regions[1] = Region { base: code(1), bound: ALL << 4, permission: 2 };
    code_of.machine(2).x[6] = code(1);
    vec![
        read.told(&[(9, (1, 21)), (4, (2, 21)), (9, (1, 21)), (4, (2, 21))]),
        write.told(&[(9, (1, 21)), (9, (2, 16)), (9, (1, 21))]),
        both.told(&[(9, (1, 21)), (9, (2, 21)), (9, (1, 21)), (9, (2, 21))]),
        h_words.told(&[(9, (1, 21)), (9, (2, 16)), (9, (1, 21))]),
        code_of.told(&[(4, (1, 21)), (2, (2, 21)), (9, (1, 13))]),
    ]
}

/// Stores x5 at offset x6 of region 1, for ever.
fn h_work() -> [u32; 4] {
    let store = word(Instruction::HStore { kind: StoreKind::Double, region: 1, rs1: 6, rs2: 5, offset: 0 });
    [add(1), store, add(1), jump(-12)]
}

// ---- random

const RANDOM: u64 = 50;

pub fn random() -> Vec<Record> {
    let mut supply = Supply::new(9);
    (0..RANDOM).map(|i| any_record(&mut supply, format!("random-{i}"))).collect()
}

fn any_record(supply: &mut Supply, name: String) -> Record {
    let mut record = Record::of(name, 1 + supply.below(4));
    record.scheduler.place = if supply.once_in(4) { supply.edge() } else { 1 + supply.below(4) };
    record.scheduler.total = supply.edge();
    for n in 1..=SLOTS as u64 {
        any_slot(supply, &mut record, n);
    }
    if supply.once_in(4) {
        record.length = supply.below(1 + ROOM as u64) as usize;
    }
    record.allowances = (0..MOST_TURNS).map(|_| any_allowance(supply)).collect();
    if supply.once_in(2) {
        record = record.put(1 + supply.below(5), 1 + supply.below(4), 1 + supply.below(4));
    }
    record
}

/// Slot n: one that works, mostly with some words of its own, and sometimes
/// refused or stopped.
fn any_slot(supply: &mut Supply, record: &mut Record, n: u64) {
    let mut words = work();
    for _ in 0..supply.below(3) {
        words[supply.below(4) as usize] = match supply.below(3) {
            0 => supply.half_word() as u32 + ((supply.half_word() as u32) << 16),
            _ => supply.word(),
        };
    }
    record.place(n, &words);
    let m = record.machine(n);
    m.x[5] = supply.edge();
    m.x[6] = supply.pick(&[data(n), data(n), data(n), data(n) + 8, data(n) + 24, data(n) + 25, 24]);
    m.options |= supply.pick(&[0, 2, 4, 8]);
    m.pc += supply.pick(&[0, 0, 0, 2, 4]);
    if supply.once_in(32) {
        let way = supply.pick(&WAYS);
        record.spoil(n, way);
    }
    let stop = if supply.once_in(5) { stopped_stop(supply) } else { supply.pick(&[0, 21]) };
    record.stop(n, stop);
}

//! Engines side by side, and the isolation experiment on one of them.

use std::collections::BTreeMap;

use crate::apart;
use crate::fetches;
use crate::half_words::{begins_long_word, row};
use crate::hfi_rules;
use crate::instruction::{decode, encode, name, HfiKind, Instruction, LOAD_TABLE, M_WORDS, STORE_TABLE};
use crate::m_words::{self, M_CLASSES, PAIRS};
use crate::machine::{Machine, EXPLICIT, REGIONS};
use crate::numbers::{bit, power};
use crate::overlap::locked_code_is_writable;
use crate::reach::{executable, writable};
use crate::region::{keeps_rule, Place};
use crate::scheduler::{Answer, Scheduler};
use crate::step::{data_access, load_size, meaning, step_asked, store_size, HALF, LONG};
use crate::supply::{sheet_of, written_out, Supply, AIMS};
use crate::ten_regions;
use crate::turns;
use crate::writable_code::{self, WAYS};

/// What an engine under test offers. `None` means that it lacks the call.
pub trait Engine {
    fn title(&self) -> String;
    /// 0 for a legal word and 13 for an illegal one; for a legal word also
    /// what encoding the decoded instruction gives.
    fn decode_encode(&self, word: u32) -> Option<(u64, u32)>;
    /// Stop and address.
    fn step(&self, machine: &mut Machine, memory: &mut [u8]) -> Option<(u64, u64)>;
    /// Stop, count and address.
    fn run(&self, machine: &mut Machine, memory: &mut [u8], budget: u64) -> Option<(u64, u64, u64)>;
    /// 0 or 3.
    fn resume(&self, machine: &mut Machine, value: u64) -> Option<u64>;
    fn respond(&self, sheet: &[u8]) -> Option<Vec<u8>>;
    /// What a turn answers (Job 9).
    fn turn(&self, _scheduler: &mut Scheduler, _memory: &mut [u8], _allowance: u64) -> Option<Answer> {
        None
    }
    /// Is there such a slot?
    fn put(&self, _scheduler: &mut Scheduler, _n: u64, _machine: &Machine) -> Option<bool> {
        None
    }
}

pub struct Oracle;

impl Engine for Oracle {
    fn title(&self) -> String {
        "oracle".to_string()
    }
    fn decode_encode(&self, word: u32) -> Option<(u64, u32)> {
        Some(match decode(word) {
            None => (13, 0),
            Some(instruction) => match encode(&instruction) {
                None => (5, 0),
                Some(back) => (0, back),
            },
        })
    }
    fn step(&self, machine: &mut Machine, memory: &mut [u8]) -> Option<(u64, u64)> {
        Some(crate::step(machine, memory))
    }
    fn run(&self, machine: &mut Machine, memory: &mut [u8], budget: u64) -> Option<(u64, u64, u64)> {
        Some(crate::run(machine, memory, budget))
    }
    fn resume(&self, machine: &mut Machine, value: u64) -> Option<u64> {
        Some(crate::resume(machine, value))
    }
    fn respond(&self, sheet: &[u8]) -> Option<Vec<u8>> {
        Some(crate::respond(sheet))
    }
    fn turn(&self, scheduler: &mut Scheduler, memory: &mut [u8], allowance: u64) -> Option<Answer> {
        Some(crate::turn(scheduler, memory, allowance))
    }
    fn put(&self, scheduler: &mut Scheduler, n: u64, machine: &Machine) -> Option<bool> {
        Some(crate::put(scheduler, n, machine))
    }
}

/// An engine behind a C interface, as function pointers. The machine is handed
/// over as the record of `Machine` (all u64, in order); answers are written to
/// a row of u64. Missing calls are `None`.
#[derive(Clone, Copy, Default)]
pub struct Foreign {
    pub title: &'static str,
    /// (word, answer: [answer, word])
    pub decode_encode: Option<unsafe extern "C" fn(u32, *mut u64)>,
    /// (machine, memory, length, answer: [stop, address])
    pub step: Option<unsafe extern "C" fn(*mut Machine, *mut u8, usize, *mut u64)>,
    /// (machine, memory, length, budget, answer: [stop, count, address])
    pub run: Option<unsafe extern "C" fn(*mut Machine, *mut u8, usize, u64, *mut u64)>,
    /// (machine, value) -> answer
    pub resume: Option<unsafe extern "C" fn(*mut Machine, u64) -> u64>,
    /// (sheet, length, output, room) -> printed length
    pub respond: Option<unsafe extern "C" fn(*const u8, usize, *mut u8, usize) -> usize>,
}

impl Engine for Foreign {
    fn title(&self) -> String {
        self.title.to_string()
    }
    fn decode_encode(&self, word: u32) -> Option<(u64, u32)> {
        let call = self.decode_encode?;
        let mut answer = [0u64; 2];
        unsafe { call(word, answer.as_mut_ptr()) };
        Some((answer[0], answer[1] as u32))
    }
    fn step(&self, machine: &mut Machine, memory: &mut [u8]) -> Option<(u64, u64)> {
        let call = self.step?;
        let mut answer = [0u64; 2];
        unsafe { call(machine, memory.as_mut_ptr(), memory.len(), answer.as_mut_ptr()) };
        Some((answer[0], answer[1]))
    }
    fn run(&self, machine: &mut Machine, memory: &mut [u8], budget: u64) -> Option<(u64, u64, u64)> {
        let call = self.run?;
        let mut answer = [0u64; 3];
        unsafe { call(machine, memory.as_mut_ptr(), memory.len(), budget, answer.as_mut_ptr()) };
        Some((answer[0], answer[1], answer[2]))
    }
    fn resume(&self, machine: &mut Machine, value: u64) -> Option<u64> {
        let call = self.resume?;
        Some(unsafe { call(machine, value) })
    }
    fn respond(&self, sheet: &[u8]) -> Option<Vec<u8>> {
        let call = self.respond?;
        let mut output = vec![0u8; 4096];
        let length = unsafe { call(sheet.as_ptr(), sheet.len(), output.as_mut_ptr(), output.len()) };
        output.truncate(length);
        Some(output)
    }
}

/// What was seen, by stop number and by instruction.
#[derive(Default)]
pub struct Counts {
    pub step_stops: BTreeMap<u64, u64>,
    pub run_stops: BTreeMap<u64, u64>,
    /// Steps completed in the runs.
    pub run_steps: u64,
    /// Completed and stopped steps of each instruction.
    pub instructions: BTreeMap<String, (u64, u64)>,
    /// H-words by what rs1 and the offset are (`H_CLASSES`) and by instruction (`h_number`).
    pub h_words: BTreeMap<&'static str, [u64; H_WORDS]>,
    /// RV64M words by what their operands are (`M_CLASSES`) and by word.
    pub m_words: m_words::Met,
    /// Aimed regions by what they are (`writable_code::CLASSES`), and the stops of the ways in which they were put.
    pub code_classes: writable_code::Met,
    pub code_stops: BTreeMap<u64, u64>,
    /// The same by the numbers of the writable region and of code: refused, not refused.
    pub code_numbers: writable_code::Numbers,
    /// Words of question 8 by where they stand and what else is wrong (`hfi_rules::Aim`): steps, runs, sheets.
    pub rules: hfi_rules::Met,
    /// Accesses aimed at two regions of a kind, and h-words by region and registers (`ten_regions::Aim`).
    pub ten_regions: ten_regions::Met,
    /// Aimed fetches, jumps and half-words, by kind (`fetches`).
    pub fetches: fetches::Met,
    /// What happened in the runs that cross the mode, by kind.
    pub crossings: BTreeMap<&'static str, u64>,
    pub resume_stops: BTreeMap<u64, u64>,
    pub sheet_lines: BTreeMap<String, u64>,
    /// Sheets by how many fields line 1 has and what became of them (`FIELD_CLASSES`).
    pub sheet_fields: BTreeMap<&'static str, u64>,
    /// Valid long sheets, and the words of the longest.
    pub long_valid: u64,
    pub long_most: usize,
    /// Refusals of long sheets by line (`LONG_PLACES`) and by question, from 31 on.
    pub long_refused: BTreeMap<&'static str, [u64; 5]>,
    /// Sheets with an empty budget that were answered like those with c350, by what became of them.
    pub empty_pairs: BTreeMap<&'static str, u64>,
    /// Of them those of `EMPTY_STEPS`: their last word stops, or leaves.
    pub empty_lasting: BTreeMap<&'static str, [u64; 2]>,
    /// Sheets refused by 33 for another empty field.
    pub empty_elsewhere: u64,
    pub isolation_stops: BTreeMap<u64, u64>,
    pub isolation_steps: u64,
    /// Isolation pairs whose memories truly differed.
    pub isolation_differing: u64,
    /// Isolation pairs with a region past the third that keeps its rule.
    pub isolation_ten: u64,
    /// Isolation pairs whose run left another memory than it began with.
    pub isolation_stored: u64,
    /// Isolation pairs that ended in HFI mode, where 4 was asked again.
    pub isolation_inside: u64,
    /// Turns and puts of Job 9 by what they were (`turns`), and its experiment by engine (`apart`).
    pub turns: turns::Met,
    pub apart: apart::Met,
    pub compared: u64,
    /// How many comparisons differed; the first 20 are told.
    pub differing: u64,
    pub differences: Vec<String>,
}

impl Counts {
    /// What another has seen, added to this.
    pub fn add(&mut self, other: Counts) {
        fn all<K: Ord>(into: &mut BTreeMap<K, u64>, from: BTreeMap<K, u64>) {
            for (key, count) in from {
                *into.entry(key).or_default() += count;
            }
        }
        all(&mut self.step_stops, other.step_stops);
        all(&mut self.run_stops, other.run_stops);
        all(&mut self.code_stops, other.code_stops);
        all(&mut self.code_classes, other.code_classes);
        all(&mut self.ten_regions, other.ten_regions);
        all(&mut self.fetches, other.fetches);
        all(&mut self.turns, other.turns);
        all(&mut self.apart, other.apart);
        all(&mut self.crossings, other.crossings);
        all(&mut self.resume_stops, other.resume_stops);
        all(&mut self.sheet_lines, other.sheet_lines);
        all(&mut self.sheet_fields, other.sheet_fields);
        all(&mut self.empty_pairs, other.empty_pairs);
        all(&mut self.isolation_stops, other.isolation_stops);
        for (name, (completed, stopped)) in other.instructions {
            let entry = self.instructions.entry(name).or_default();
            entry.0 += completed;
            entry.1 += stopped;
        }
        for (class, met) in other.h_words {
            let entry = self.h_words.entry(class).or_default();
            (0..H_WORDS).for_each(|n| entry[n] += met[n]);
        }
        for (class, met) in other.m_words {
            let entry = self.m_words.entry(class).or_default();
            (0..M_WORDS).for_each(|n| entry[n] += met[n]);
        }
        for (aim, met) in other.rules {
            let entry = self.rules.entry(aim).or_default();
            (0..3).for_each(|n| entry[n] += met[n]);
        }
        for (numbers, met) in other.code_numbers {
            let entry = self.code_numbers.entry(numbers).or_default();
            (0..2).for_each(|n| entry[n] += met[n]);
        }
        for (place, met) in other.long_refused {
            let entry = self.long_refused.entry(place).or_default();
            (0..5).for_each(|n| entry[n] += met[n]);
        }
        for (range, met) in other.empty_lasting {
            let entry = self.empty_lasting.entry(range).or_default();
            (0..2).for_each(|n| entry[n] += met[n]);
        }
        self.empty_elsewhere += other.empty_elsewhere;
        self.long_valid += other.long_valid;
        self.long_most = self.long_most.max(other.long_most);
        self.run_steps += other.run_steps;
        self.isolation_steps += other.isolation_steps;
        self.isolation_differing += other.isolation_differing;
        self.isolation_ten += other.isolation_ten;
        self.isolation_stored += other.isolation_stored;
        self.isolation_inside += other.isolation_inside;
        self.compared += other.compared;
        self.differing += other.differing;
        self.differences.extend(other.differences);
    }

    pub fn difference(&mut self, text: String) {
        self.differing += 1;
        if self.differences.len() < 20 {
            self.differences.push(text);
        }
    }
}

/// The instructions with the h-prefix: seven loads, four stores.
pub const H_WORDS: usize = 11;

const H_NAMES: [&str; H_WORDS] = ["hlb", "hlh", "hlw", "hld", "hlbu", "hlhu", "hlwu", "hsb", "hsh", "hsw", "hsd"];

/// The place of an h-word in `H_NAMES`.
fn h_number(instruction: &Instruction) -> Option<usize> {
    match *instruction {
        Instruction::HLoad { kind, .. } => LOAD_TABLE.iter().position(|row| row.0 == kind),
        Instruction::HStore { kind, .. } => STORE_TABLE.iter().position(|row| row.0 == kind).map(|n| 7 + n),
        _ => None,
    }
}

/// An h-word in HFI mode whose region keeps its rule and has the permission,
/// so that the offset alone decides.
pub struct HWord {
    x0: bool,
    /// rs1 is rd or rs2 too.
    twice: bool,
    rs1: i128,
    immediate: i128,
    size: i128,
    bound: i128,
}

impl HWord {
    fn of(machine: &Machine, instruction: &Instruction) -> Option<HWord> {
        let (register, other, immediate) = match *instruction {
            Instruction::HLoad { rd, rs1, offset, .. } => (rs1, rd, offset),
            Instruction::HStore { rs1, rs2, offset, .. } => (rs1, rs2, offset),
            _ => return None,
        };
        let access = data_access(machine, instruction)?;
        let Place::Explicit { region: number, .. } = access.place else { return None };
        let region = machine.regions[number - 1];
        let open = machine.mode == 1 && keeps_rule(number, &region) && bit(region.permission, access.op.wanted());
        open.then(|| HWord {
            x0: register == 0,
            twice: register == other && register != 0,
            rs1: machine.get(register) as i128,
            immediate: immediate as i128,
            size: access.size as i128,
            bound: region.bound as i128,
        })
    }

    fn offset(&self) -> i128 {
        self.rs1 + self.immediate
    }

    fn inside(&self, offset: i128) -> bool {
        offset >= 0 && offset + self.size <= self.bound
    }

    fn about(&self, place: i128, distance: i128) -> bool {
        (self.rs1 - place).abs() <= distance
    }
}

fn two(n: u32) -> i128 {
    power(n) as i128
}

/// What rs1 and the offset of an h-word can be: the name, the fewest bytes
/// that an access of the class has, and the test. A word may be of several.
type HClass = (&'static str, i128, fn(&HWord) -> bool);

pub const H_CLASSES: [HClass; 20] = [
    ("rs1 is x0", 1, |h| h.x0),
    ("rs1 0", 1, |h| !h.x0 && h.rs1 == 0),
    ("rs1 1 to 2,054, all bytes inside", 1, |h| (1..=2054).contains(&h.rs1) && h.inside(h.offset())),
    ("rs1 past 2,054, all bytes inside", 1, |h| h.rs1 > 2054 && h.inside(h.offset())),
    ("offset past 4,095, all bytes inside", 1, |h| h.offset() > 4095 && h.inside(h.offset())),
    ("rs1 within 9 of the bound", 1, |h| h.about(h.bound, 9)),
    ("rs1 2^32 or more, only its low half inside", 1, |h| {
        h.rs1 >= two(32) && !h.inside(h.offset()) && h.inside(h.rs1 % two(32) + h.immediate)
    }),
    ("rs1 within 16 of 2^48", 1, |h| h.about(two(48), 16)),
    ("rs1 within 16 of 2^62", 1, |h| h.about(two(62), 16)),
    ("rs1 within 16 of 2^63", 1, |h| h.about(two(63), 16)),
    ("rs1 within 16 of 2^64", 1, |h| h.about(two(64), 16)),
    ("rs1 is rd or rs2, all bytes inside", 1, |h| h.twice && h.inside(h.offset())),
    ("offset below 0, later bytes inside", 2, |h| h.offset() < 0 && h.offset() + h.size > 0),
    ("offset below 0, no byte inside", 1, |h| h.offset() + h.size <= 0),
    ("offset 0 by an immediate below 0", 1, |h| h.offset() == 0 && h.immediate < 0),
    ("inside only if the immediate is signed", 1, |h| h.immediate < 0 && h.inside(h.offset()) && !h.inside(h.offset() + 4096)),
    ("last byte is the region's last", 1, |h| !h.x0 && h.offset() >= 0 && h.offset() + h.size == h.bound),
    ("first bytes inside, later past the bound", 2, |h| {
        (0..h.bound).contains(&h.offset()) && h.offset() + h.size > h.bound
    }),
    ("offset at the bound or up to 9 past it", 1, |h| (0..=9).contains(&(h.offset() - h.bound))),
    ("offset 2^64 or more, inside if it wrapped", 1, |h| h.offset() >= two(64) && h.inside(h.offset() - two(64))),
];

/// The h-words that met no access of a class, of those that can.
pub fn h_words_unmet(counts: &Counts) -> Vec<String> {
    let mut unmet = Vec::new();
    for (class, least, _) in H_CLASSES {
        let met = counts.h_words.get(class).copied().unwrap_or_default();
        let sizes = LOAD_TABLE.iter().map(|row| load_size(row.0)).chain(STORE_TABLE.iter().map(|row| store_size(row.0)));
        for (n, size) in sizes.enumerate() {
            if met[n] == 0 && size as i128 >= least {
                unmet.push(format!("{} met no access of the class: {class}", H_NAMES[n]));
            }
        }
    }
    unmet
}

/// Every answer of both engines to one word.
pub fn compare_word(left: &dyn Engine, right: &dyn Engine, word: u32, counts: &mut Counts) {
    if let (Some(a), Some(b)) = (left.decode_encode(word), right.decode_encode(word)) {
        counts.compared += 1;
        if a != b {
            counts.difference(format!("word {word:08x}: {} {a:?}, {} {b:?}", left.title(), right.title()));
        }
    }
}

pub fn first_byte_apart(a: &[u8], b: &[u8]) -> Option<usize> {
    (0..a.len()).find(|i| a[*i] != b[*i])
}

pub fn show(machine: &Machine) -> String {
    let registers: Vec<String> =
        (0..32).filter(|n| machine.x[*n] != 0).map(|n| format!("x{n}={:x}", machine.x[n])).collect();
    format!(
        "pc={:x} mode={:x} reason={:x} exit_pc={:x} options={:x} handler={:x} selector={:x} regions={:x?} fault={:x?} {}",
        machine.pc,
        machine.mode,
        machine.reason,
        machine.exit_pc,
        machine.options,
        machine.handler,
        machine.selector,
        machine.regions.map(|r| (r.base, r.bound, r.permission)),
        (machine.fault.occurred, machine.fault.region, machine.fault.op, machine.fault.address),
        registers.join(" ")
    )
}

/// The bytes at pc that are in memory, four at most, as a number; and how many a
/// word there has.
fn word_at(memory: &[u8], pc: u64) -> Option<(u32, u64)> {
    let from = memory.get(usize::try_from(pc).ok()?..)?;
    let bytes: [u8; 4] = std::array::from_fn(|n| from.get(n).copied().unwrap_or(0));
    let word = u32::from_le_bytes(bytes);
    let length = if begins_long_word(word as u16) { LONG } else { HALF };
    (from.len() as u64 >= length).then_some((word, length))
}

/// Counts a word that was fetched by its instruction, or by its row if it is a
/// half-word, its stop and its classes.
fn count_word(before: &Machine, (word, length): (u32, u64), stop: u64, counts: &mut Counts) {
    let Some(instruction) = meaning(word, length) else { return };
    let instruction = &instruction;
    let title = match row(word as u16).filter(|_| length == HALF) {
        Some(row) => row.0.to_string(),
        None => name(instruction),
    };
    let entry = counts.instructions.entry(title).or_default();
    if stop == 0 {
        entry.0 += 1;
    } else {
        entry.1 += 1;
    }
    m_words::count(before, instruction, &mut counts.m_words);
    if let (Some(n), Some(h)) = (h_number(instruction), HWord::of(before, instruction)) {
        for (class, _, _) in H_CLASSES.into_iter().filter(|(_, _, test)| test(&h)) {
            counts.h_words.entry(class).or_default()[n] += 1;
        }
    }
}

/// One step of both engines; the left one is the measure. Answers whether the
/// step completed.
pub fn compare_step(
    left: &dyn Engine,
    right: &dyn Engine,
    machine: &mut Machine,
    memory: &mut Vec<u8>,
    counts: &mut Counts,
) -> bool {
    let before = *machine;
    let word = word_at(memory, machine.pc);
    let (mut m, mut bytes) = (*machine, memory.clone());
    let a = left.step(machine, memory).expect("the measure steps");
    *counts.step_stops.entry(a.0).or_default() += 1;
    if let (Some(word), true) = (word, ![1, 3, 4, 10, 11, 12].contains(&a.0)) {
        count_word(&before, word, a.0, counts);
    }
    if let Some(b) = right.step(&mut m, &mut bytes) {
        counts.compared += 1;
        if a != b || *machine != m || *memory != bytes {
            counts.difference(format!(
                "step, word {:08x?}, length {}\n  before {}\n  {} {a:?} {}\n  {} {b:?} {}\n  first byte apart {:?}",
                word.map(|word| word.0),
                memory.len(),
                show(&before),
                left.title(),
                show(machine),
                right.title(),
                show(&m),
                first_byte_apart(memory, &bytes)
            ));
        }
    }
    a.0 == 0
}

/// One run of both engines.
pub fn compare_run(
    left: &dyn Engine,
    right: &dyn Engine,
    machine: &Machine,
    memory: &[u8],
    budget: u64,
    counts: &mut Counts,
) {
    let (mut m, mut bytes) = (*machine, memory.to_vec());
    let a = left.run(&mut m, &mut bytes, budget).expect("the measure runs");
    *counts.run_stops.entry(a.0).or_default() += 1;
    counts.run_steps += a.1;
    let (mut n, mut others) = (*machine, memory.to_vec());
    if let Some(b) = right.run(&mut n, &mut others, budget) {
        counts.compared += 1;
        if a != b || m != n || bytes != others {
            counts.difference(format!(
                "run of {budget}, length {}\n  before {}\n  {} {a:?} {}\n  {} {b:?} {}\n  first byte apart {:?}",
                memory.len(),
                show(machine),
                left.title(),
                show(&m),
                right.title(),
                show(&n),
                first_byte_apart(&bytes, &others)
            ));
        }
    }
}

pub fn compare_resume(left: &dyn Engine, right: &dyn Engine, machine: &Machine, value: u64, counts: &mut Counts) {
    let (mut m, mut n) = (*machine, *machine);
    if let (Some(a), Some(b)) = (left.resume(&mut m, value), right.resume(&mut n, value)) {
        counts.compared += 1;
        *counts.resume_stops.entry(a).or_default() += 1;
        if a != b || m != n {
            counts.difference(format!("resume\n  before {}\n  {a} {}\n  {b} {}", show(machine), show(&m), show(&n)));
        }
    }
}

/// One sheet to both engines. Answers what the left one prints.
pub fn compare_sheet(left: &dyn Engine, right: &dyn Engine, sheet: &[u8], counts: &mut Counts) -> String {
    both_answers(left, right, sheet, counts).0
}

/// One sheet to both engines. Answers what each prints.
fn both_answers(left: &dyn Engine, right: &dyn Engine, sheet: &[u8], counts: &mut Counts) -> (String, Option<Vec<u8>>) {
    let a = left.respond(sheet).expect("the measure responds");
    let text = String::from_utf8_lossy(&a).to_string();
    let first: Vec<&str> = text.split(',').collect();
    let key = if first[0] == "sheet" { format!("sheet,{}", first[1]) } else { first[0].to_string() };
    *counts.sheet_lines.entry(key).or_default() += 1;
    *counts.sheet_fields.entry(field_class(sheet, &text)).or_default() += 1;
    let answer = right.respond(sheet);
    if let Some(b) = &answer {
        counts.compared += 1;
        if a != *b {
            counts.difference(format!(
                "sheet {:?}\n  {} {:?}\n  {} {:?}",
                String::from_utf8_lossy(sheet),
                left.title(),
                text,
                right.title(),
                String::from_utf8_lossy(b)
            ));
        }
    }
    (text, answer)
}

/// What line 1 of a sheet has, and what becomes of it.
pub const FIELD_CLASSES: [&str; 6] =
    ["13 fields, run", "34 fields, run", "13 fields, refused", "34 fields, refused", "other fields, refused with 32", "refused before that"];

fn field_class(sheet: &[u8], printed: &str) -> &'static str {
    let line = sheet.split(|byte| *byte == b'\n').next().unwrap_or_default();
    let fields = 1 + line.iter().filter(|byte| **byte == b',').count();
    let refused = printed.starts_with("sheet");
    match fields {
        13 => FIELD_CLASSES[2 * refused as usize],
        34 => FIELD_CLASSES[1 + 2 * refused as usize],
        _ if printed == "sheet,32,1\n" => FIELD_CLASSES[4],
        _ => FIELD_CLASSES[5],
    }
}

/// Setup lines of 1 to 40 fields: 32 refuses all but those of 13 and 34, and 33 these where pc is empty.
pub fn field_counts(left: &dyn Engine, right: &dyn Engine, supply: &mut Supply, counts: &mut Counts) {
    for fields in 1..=40 {
        let values: Vec<String> = (1..fields).map(|_| format!("{:x}", supply.below(16))).collect();
        let budget = if supply.once_in(2) { "" } else { "8" };
        let sheet = format!("{}\n", [values, vec![budget.to_string()]].concat().join(","));
        let printed = compare_budgets(left, right, sheet.as_bytes(), counts);
        if (printed == "sheet,32,1\n") == [13, 34].contains(&fields) {
            counts.difference(format!("{fields} fields are answered by {printed:?}"));
        }
        let empty = sheet[sheet.find(',').unwrap_or(0)..].to_string();
        let printed = compare_budgets(left, right, empty.as_bytes(), counts);
        if (printed == "sheet,33,1\n") != [13, 34].contains(&fields) {
            counts.difference(format!("{fields} fields, the first empty, are answered by {printed:?}"));
        }
    }
}

/// The classes of sheets by fields that were not met.
pub fn fields_unmet(counts: &Counts) -> Vec<String> {
    let lacking = FIELD_CLASSES[..5].iter().filter(|class| !counts.sheet_fields.contains_key(*class));
    let mut unmet: Vec<String> = lacking.map(|class| format!("no sheet of: {class}")).collect();
    if counts.isolation_ten == 0 {
        unmet.push("no isolation pair with more than three regions".to_string());
    }
    unmet
}

/// One sheet to both engines, and if its budget is empty the same with c350 there, which the right one must answer alike.
/// Answers what the left one prints to the first.
pub fn compare_budgets(left: &dyn Engine, right: &dyn Engine, sheet: &[u8], counts: &mut Counts) -> String {
    let (text, answer) = both_answers(left, right, sheet, counts);
    if let (Some(answer), Some(written)) = (answer, written_out(sheet)) {
        let other = both_answers(left, right, &written, counts).1.expect("it responds");
        if answer == other {
            *counts.empty_pairs.entry(became(&text)).or_default() += 1;
        } else {
            let told = [sheet, &answer, &other].map(String::from_utf8_lossy);
            counts.difference(format!("sheet {:?}\n  {:?}, with c350 {:?}", told[0], told[1], told[2]));
        }
    }
    text
}

/// What became of a sheet with an empty budget, by what was printed.
fn became(text: &str) -> &'static str {
    let fields: Vec<&str> = text.split(',').collect();
    match (fields[0], u64::from_str_radix(fields[1], 16).expect("steps")) {
        ("sheet", _) => "refused",
        ("21", _) => "used up",
        (_, 0..=1_000) => "ended within 1,000 steps",
        _ => "ended later",
    }
}

/// How many steps the program of a sheet with an empty budget completes before its last word: the name, the fewest, the most.
pub const EMPTY_STEPS: [(&str, u64, u64); 8] = [
    ("20 to 998", 20, 998),
    ("999 to 1,001", 999, 1_001),
    ("1,002 to 49,990", 1_002, 49_990),
    ("49,991 to 49,998", 49_991, 49_998),
    ("49,999", 49_999, 49_999),
    ("50,000", 50_000, 50_000),
    ("50,001 to 50,010", 50_001, 50_010),
    ("50,011 to 1,000,000", 50_011, 1_000_000),
];

/// How many turns it takes until each number of steps has had a last word that stops and one that leaves.
pub const EMPTY_TURNS: u64 = 2 * EMPTY_STEPS.len() as u64;

/// A sheet with an empty budget, going by the turn; none from `EMPTY_TURNS` on.
pub fn empty_budget(left: &dyn Engine, right: &dyn Engine, supply: &mut Supply, turn: u64, counts: &mut Counts) {
    let Some((range, fewest, most)) = EMPTY_STEPS.get(turn as usize / 2) else { return };
    let (leaves, steps) = (turn % 2, fewest + supply.below(most - fewest + 1));
    let (lines, stop) = supply.lasting_lines(steps, leaves == 1);
    let printed = compare_budgets(left, right, &sheet_of(&lines), counts);
    // 50,000 steps do not reach the word after them; the step that leaves counts.
    let expected = if steps < 50_000 { format!("{stop},{:x},", steps + leaves) } else { "21,c350,".to_string() };
    if printed.starts_with(&expected) {
        counts.empty_lasting.entry(range).or_default()[leaves as usize] += 1;
    } else {
        counts.difference(format!("{steps} steps and then {stop} are answered by {printed:?}"));
    }
}

/// A sheet with an empty budget and another empty field, for each of line 1 and for both of line 2; 33 refuses it.
pub fn empty_elsewhere(left: &dyn Engine, right: &dyn Engine, supply: &mut Supply, counts: &mut Counts) {
    let (lines, _) = supply.lasting_lines(20, false);
    let budget = lines[0].iter().filter(|byte| **byte == b',').count();
    for (line, place) in (0..budget).map(|place| (0, place)).chain([(1, 0), (1, 1)]) {
        let mut changed = lines.clone();
        let mut fields: Vec<&[u8]> = lines[line].split(|byte| *byte == b',').collect();
        fields[place] = b"";
        changed[line] = fields.join(&b',');
        let printed = compare_budgets(left, right, &sheet_of(&changed), counts);
        if printed == format!("sheet,33,{}\n", line + 1) {
            counts.empty_elsewhere += 1;
        } else {
            counts.difference(format!("field {} of line {} is empty: {printed:?}", place + 1, line + 1));
        }
    }
}

/// The numbers of steps that no sheet with an empty budget had before it stopped, or left, and what else was not met.
pub fn empty_budgets_unmet(counts: &Counts) -> Vec<String> {
    let mut unmet = Vec::new();
    for (range, _, _) in EMPTY_STEPS {
        let met = counts.empty_lasting.get(range).copied().unwrap_or_default();
        for n in (0..2).filter(|n| met[*n] == 0) {
            unmet.push(format!("no sheet with an empty budget {} after {range} steps", ["stopped", "left"][n]));
        }
    }
    if counts.empty_elsewhere == 0 {
        unmet.push("no sheet had another empty field".to_string());
    }
    unmet
}

/// Where in a long sheet a line is refused: the name, and the first and the last such line of a sheet of so many.
pub const LONG_PLACES: [(&str, fn(usize) -> (usize, usize)); 8] = [
    ("line 1", |_| (1, 1)),
    ("line 2", |_| (2, 2)),
    ("lines 9 to 11", |_| (9, 11)),
    ("lines 99 to 101", |_| (99, 101)),
    ("lines 255 to 257", |_| (255, 257)),
    ("lines 999 to 1,001", |_| (999, 1001)),
    ("lines from 1,002 on", |lines| (1002, lines)),
    ("the last line", |lines| (lines, lines)),
];

/// A long sheet, that sheet damaged anyhow, and that sheet with a fault for each question in each place.
pub fn long_sheets(left: &dyn Engine, right: &dyn Engine, supply: &mut Supply, turn: u64, counts: &mut Counts) {
    let (words, widest) = match turn % 4 {
        0 => (usize::MAX, 1),
        1 => (300 + supply.below(2_700) as usize, 16),
        2 => (3_000, 6),
        _ => (usize::MAX, 16),
    };
    let mut lines = supply.long_lines(words, widest);
    let valid = sheet_of(&lines);
    if compare_sheet(left, right, &valid, counts).starts_with("sheet") {
        counts.difference(format!("a valid sheet of {} lines is refused", lines.len()));
    }
    counts.long_valid += 1;
    counts.long_most = counts.long_most.max(lines.len() - 1);
    let damaged = supply.damaged(valid);
    compare_sheet(left, right, &damaged, counts);
    for (place, range) in LONG_PLACES {
        let (first, last) = range(lines.len());
        for question in 31..=35 {
            if first > last || last > lines.len() || question == 35 && first < 3 {
                continue;
            }
            let k = first + supply.below((last - first + 1) as u64) as usize;
            if planted(left, right, supply, &mut lines, question, k, counts) {
                counts.long_refused.entry(place).or_default()[question as usize - 31] += 1;
            }
        }
    }
}

/// A sheet with a fault for this question in line k. Mostly a line after it is blank too, or for 31 one before it. Answers
/// whether the left engine tells question and line.
fn planted(
    left: &dyn Engine,
    right: &dyn Engine,
    supply: &mut Supply,
    lines: &mut [Vec<u8>],
    question: u64,
    k: usize,
    counts: &mut Counts,
) -> bool {
    let other = match supply.below(3) {
        0 => k,
        1 if question == 31 => 1 + supply.below(k as u64) as usize,
        _ => k + supply.below((lines.len() - k + 1) as u64) as usize,
    };
    let (kept, kept_other) = (lines[k - 1].clone(), lines[other - 1].clone());
    supply.plant(lines, question, k);
    if other != k {
        lines[other - 1].clear();
    }
    let printed = compare_sheet(left, right, &sheet_of(lines), counts);
    let good = printed == format!("sheet,{question},{k}\n");
    if !good {
        counts.difference(format!("a fault for {question} in line {k} is answered by {printed:?}"));
    }
    lines[other - 1] = kept_other;
    lines[k - 1] = kept;
    good
}

/// The places in which a question refused no long sheet, and what else was not met.
pub fn long_sheets_unmet(counts: &Counts) -> Vec<String> {
    let mut unmet = Vec::new();
    for (place, range) in LONG_PLACES {
        let met = counts.long_refused.get(place).copied().unwrap_or_default();
        let questions = if range(3_000).0 < 3 { 4 } else { 5 }; // 35 not in lines 1 and 2
        for n in (0..questions).filter(|n| met[*n] == 0) {
            unmet.push(format!("{} refused no long sheet in: {place}", 31 + n));
        }
    }
    if counts.long_most < 9_500 {
        unmet.push(format!("no sheet had more than {} words", counts.long_most));
    }
    unmet
}

/// What the steps of one run do about the mode.
#[derive(Default)]
struct Crossings {
    began_inside: bool,
    ended_inside: bool,
    stop: u64,
    entered: u64,
    left: u64,
    /// Steps after the last time that it left.
    since: u64,
}

/// The oracle's steps of a run one by one; each enter and each leaving is
/// counted by its kind.
fn follow(machine: &Machine, memory: &[u8], budget: u64, counts: &mut Counts) -> Crossings {
    let (mut m, mut bytes) = (*machine, memory.to_vec());
    let mut seen = Crossings { began_inside: m.mode == 1, stop: 21, ..Crossings::default() };
    if locked_code_is_writable(machine) {
        seen.stop = 4;
        return seen;
    }
    for _ in 0..budget {
        let (before, word) = (m.mode, word_at(&bytes, m.pc));
        let stop = step_asked(&mut m, &mut bytes).0;
        if stop != 0 {
            seen.stop = stop;
            break;
        }
        seen.since += 1;
        if before == 0 && m.mode == 1 {
            seen.entered += 1;
            let jump = matches!(word.and_then(|word| meaning(word.0, word.1)), Some(Instruction::Hfi { kind: HfiKind::EnterJump, .. }));
            *counts.crossings.entry(if jump { "enters with jump" } else { "enters" }).or_default() += 1;
        }
        if before == 1 && m.mode == 0 {
            seen.left += 1;
            seen.since = 0;
            let kind = match (m.reason, m.options & 4) {
                (2, _) => "calls redirected",
                (_, 4) => "exits redirected",
                _ => "exits not redirected",
            };
            *counts.crossings.entry(kind).or_default() += 1;
            if seen.began_inside {
                seen.stop = 20;
                break;
            }
        }
    }
    seen.ended_inside = m.mode == 1;
    seen
}

/// Counts a run by what it does about the mode.
pub fn count_crossings(machine: &Machine, memory: &[u8], budget: u64, counts: &mut Counts) {
    let seen = follow(machine, memory, budget, counts);
    let kinds = if seen.began_inside {
        vec![
            ("runs begun inside", true),
            ("runs begun inside that ended with 4", seen.stop == 4),
            ("runs begun inside that ended with 20", seen.stop == 20),
            ("runs begun inside that ended with 23 or 25", seen.stop == 23 || seen.stop == 25),
        ]
    } else {
        vec![
            ("runs begun outside", true),
            ("runs begun outside that left and went on", seen.left > 0 && seen.since > 0),
            ("runs begun outside that left and entered again", seen.left > 0 && seen.entered > 1),
            ("runs begun outside whose last step left", seen.left > 0 && seen.since == 0 && seen.stop == 21),
            ("runs begun outside that ended with 18 inside", seen.stop == 18 && seen.ended_inside),
            ("runs begun outside that ended with 11 or 16", seen.stop == 11 || seen.stop == 16),
            ("runs begun outside that ended with 22", seen.stop == 22),
            ("runs begun outside that entered and ended with 22", seen.stop == 22 && seen.entered > 0),
            ("runs begun outside that entered and ended with 23", seen.stop == 23),
            ("runs begun outside that ended with 24", seen.stop == 24),
            ("runs begun outside that left and ended with 24", seen.stop == 24 && seen.left > 0),
            ("runs begun outside that entered and ended with 25", seen.stop == 25),
            ("runs begun outside that ended with 14", seen.stop == 14),
        ]
    };
    for (kind, _) in kinds.into_iter().filter(|(_, holds)| *holds) {
        *counts.crossings.entry(kind).or_default() += 1;
    }
}

/// Demand 3 on one engine: from one machine in locked HFI mode and two
/// memories that agree on readable and executable bytes, the same stop, count,
/// address and final machine; bytes that agreed still agree; bytes that are
/// not writable are unchanged, and so are executable ones in either run.
pub fn isolation(
    engine: &dyn Engine,
    machine: &Machine,
    one: &[u8],
    two: &[u8],
    budget: u64,
    counts: &mut Counts,
) {
    let (mut m, mut n) = (*machine, *machine);
    let (mut a, mut b) = (one.to_vec(), two.to_vec());
    let first = engine.run(&mut m, &mut a, budget);
    let second = engine.run(&mut n, &mut b, budget);
    let (Some(first), Some(second)) = (first, second) else { return };
    counts.compared += 1;
    *counts.isolation_stops.entry(first.0).or_default() += 1;
    counts.isolation_steps += first.1;
    counts.isolation_differing += (one != two) as u64;
    counts.isolation_ten += (4..=REGIONS).any(|number| keeps_rule(number, &machine.regions[number - 1])) as u64;
    counts.isolation_stored += (one != a || two != b) as u64;
    if first != second || m != n {
        counts.difference(format!(
            "isolation of {}: answers differ\n  before {}\n  {first:?} {}\n  {second:?} {}",
            engine.title(),
            show(machine),
            show(&m),
            show(&n)
        ));
    }
    if let Some(text) = (0..one.len()).find_map(|at| byte_fault(machine, at, (one[at], two[at]), (a[at], b[at]))) {
        counts.difference(format!("isolation: {text}\n  before {}", show(machine)));
    }
    stays_unrefused(engine, machine, first, &m, &mut a, counts);
}

/// What is wrong with a byte of both memories, by what it was in each and what it is.
fn byte_fault(machine: &Machine, address: usize, before: (u8, u8), after: (u8, u8)) -> Option<String> {
    let changed = before != after;
    if before.0 == before.1 && after.0 != after.1 {
        return Some(format!("byte {address:x} agreed and differs"));
    }
    if changed && !writable(machine, address as u64) {
        return Some(format!("byte {address:x} is not writable and changed"));
    }
    if changed && executable(machine, address as u64) {
        return Some(format!("byte {address:x} is executable and changed"));
    }
    None
}

/// A run that was not refused with 4 leaves a machine that is not either, if it is still in locked HFI mode.
fn stays_unrefused(
    engine: &dyn Engine,
    before: &Machine,
    (stop, _, _): (u64, u64, u64),
    after: &Machine,
    memory: &mut [u8],
    counts: &mut Counts,
) {
    if [1, 2, 3, 4].contains(&stop) || after.mode == 0 {
        return;
    }
    counts.isolation_inside += 1;
    let again = engine.run(&mut after.clone(), memory, 0);
    if again != Some((21, 0, 0)) {
        counts.difference(format!("isolation: a run left {again:?}\n  before {}\n  after {}", show(before), show(after)));
    }
}

/// Random rounds over all of the above.
pub fn rounds(left: &dyn Engine, right: &dyn Engine, seed: u64, number: u64, counts: &mut Counts) {
    for round in 0..number {
        let mut supply = Supply::new(seed.wrapping_mul(0x1_0000_0001).wrapping_add(round));
        for _ in 0..64 {
            let word = supply.word();
            compare_word(left, right, word, counts);
        }
        let length = supply.length();
        let memory = supply.memory(length);
        for _ in 0..8 {
            any_machine(left, right, &mut supply, &memory, counts);
        }
        aimed(left, right, &mut supply, round as usize, counts);
        for _ in 0..4 {
            steady_run(left, right, &mut supply, counts);
            crossing_run(left, right, &mut supply, counts);
        }
        for _ in 0..2 {
            let valid = supply.valid_sheet();
            compare_budgets(left, right, &valid, counts);
            let damaged = supply.damaged_sheet();
            compare_budgets(left, right, &damaged, counts);
        }
        for turn in 0..8 {
            isolation_pair(right, &mut supply, turn, length, counts);
        }
        if round % LONG_EVERY == 0 {
            long_sheets(left, right, &mut supply, round / LONG_EVERY, counts);
            field_counts(left, right, &mut supply, counts);
        }
        if round % EMPTY_EVERY == 0 {
            empty_elsewhere(left, right, &mut supply, counts);
        }
        empty_budget(left, right, &mut supply, round % EMPTY_EVERY, counts);
        turns::compare(left, right, &mut supply, round, counts);
        apart::compare(left, right, &mut supply, round, counts);
    }
}

/// What is aimed at an edge in each round.
fn aimed(left: &dyn Engine, right: &dyn Engine, supply: &mut Supply, round: usize, counts: &mut Counts) {
    h_words(left, right, supply, round, counts);
    m_word_pairs(left, right, supply, round, counts);
    writable_code::compare(left, right, supply, counts);
    hfi_rules::compare(left, right, supply, round, counts);
    ten_regions::compare(left, right, supply, counts);
    fetches::compare(left, right, supply, round, counts);
}

/// Long sheets take longer than a round, so one round in so many has them.
const LONG_EVERY: u64 = 200;

/// So do sheets with an empty budget: of so many rounds only the first have them.
const EMPTY_EVERY: u64 = 1_000;

/// Any machine over a memory of random words: steps, a run, a resumption.
fn any_machine(left: &dyn Engine, right: &dyn Engine, supply: &mut Supply, memory: &[u8], counts: &mut Counts) {
    let machine = supply.machine(memory.len());
    let (mut m, mut bytes) = (machine, memory.to_vec());
    for _ in 0..16 {
        if !compare_step(left, right, &mut m, &mut bytes, counts) {
            break;
        }
    }
    if memory.len() >= 4 {
        chosen_word(left, right, supply, memory, counts);
    }
    let budget = supply.budget();
    compare_run(left, right, &machine, memory, budget, counts);
    let value = supply.edge();
    compare_resume(left, right, &machine, value, counts);
}

/// A step of a single chosen word, so that each instruction is met.
fn chosen_word(left: &dyn Engine, right: &dyn Engine, supply: &mut Supply, memory: &[u8], counts: &mut Counts) {
    let mut bytes = memory.to_vec();
    let mut m = supply.chosen_word(&mut bytes);
    compare_step(left, right, &mut m, &mut bytes, counts);
}

/// How many rounds it takes until each h-word has had each aim.
pub const H_ROUNDS: u64 = 7;

/// A step and a run of an h-load and an h-store of each aim, the instruction
/// going by the round; then some through any region.
fn h_words(left: &dyn Engine, right: &dyn Engine, supply: &mut Supply, round: usize, counts: &mut Counts) {
    let memory = supply.aimed_memory();
    for (place, aim) in AIMS.into_iter().enumerate() {
        for n in [(round + place) % 7, 7 + (round + place) % 4] {
            let mut bytes = memory.clone();
            let mut machine = supply.aimed_h_word(aim, n, EXPLICIT[place % 4], &mut bytes);
            compare_run(left, right, &machine, &bytes, 2, counts);
            compare_step(left, right, &mut machine, &mut bytes, counts);
        }
    }
    for _ in 0..8 {
        let mut bytes = memory.clone();
        let mut machine = supply.h_word_of_any_region(&mut bytes);
        compare_step(left, right, &mut machine, &mut bytes, counts);
    }
}

/// A step and a run of each RV64M word with each pair of operands; the
/// registers go by the round.
fn m_word_pairs(left: &dyn Engine, right: &dyn Engine, supply: &mut Supply, round: usize, counts: &mut Counts) {
    for (place, aim) in PAIRS.into_iter().enumerate() {
        for n in 0..M_WORDS {
            let mut bytes = vec![0; 16];
            let mut machine = supply.aimed_m_word(aim, n, round + place, &mut bytes);
            compare_run(left, right, &machine, &bytes, 1, counts);
            compare_step(left, right, &mut machine, &mut bytes, counts);
        }
    }
}

/// A run that goes on for a while in HFI mode, whole and step by step.
fn steady_run(left: &dyn Engine, right: &dyn Engine, supply: &mut Supply, counts: &mut Counts) {
    let (machine, memory) = supply.steady_world();
    let budget = supply.budget();
    compare_run(left, right, &machine, &memory, budget, counts);
    let (mut m, mut bytes) = (machine, memory);
    for _ in 0..64 {
        if !compare_step(left, right, &mut m, &mut bytes, counts) {
            break;
        }
    }
}

/// A run that goes in and out of HFI mode, and a resumption of any state.
fn crossing_run(left: &dyn Engine, right: &dyn Engine, supply: &mut Supply, counts: &mut Counts) {
    let k = 7 + supply.below(4);
    let (mut machine, mut memory) = supply.crossing_world(k);
    supply.give_offsets(&mut machine, &mut memory);
    let budget = supply.pick(&[20, 50, 100, 200]) + supply.below(20);
    count_crossings(&machine, &memory, budget, counts);
    compare_run(left, right, &machine, &memory, budget, counts);
    let machine = supply.any_state();
    let value = supply.edge();
    compare_resume(left, right, &machine, value, counts);
}

/// One experiment of demand 3: a locked machine and two memories.
fn isolation_pair(engine: &dyn Engine, supply: &mut Supply, turn: u64, length: usize, counts: &mut Counts) {
    let (machine, one) = if turn < 2 {
        (supply.locked_machine(length), supply.memory(length))
    } else {
        supply.locked_world()
    };
    let two = supply.twin(&machine, &one);
    let budget = supply.budget();
    isolation(engine, &machine, &one, &two, budget, counts);
}

/// Lengths about the limit, which random rounds do not reach: four machines
/// each, as they come, at pc 0 outside HFI mode, and about the memory's end;
/// and one whose locked code is writable.
pub fn long_memories(left: &dyn Engine, right: &dyn Engine, seed: u64, counts: &mut Counts) {
    let mut supply = Supply::new(seed);
    for length in [16_777_215usize, 16_777_216, 16_777_217] {
        let mut memory = vec![0u8; length];
        for _ in 0..4 {
            let mut machine = supply.machine(length);
            compare_run(left, right, &machine, &memory, 10, counts);
            machine.mode = 0;
            for pc in [0, length / 4 * 4 - 4, length / 4 * 4 - 2, length / 4 * 4] {
                let word = supply.word();
                if let Some(place) = memory.get_mut(pc..pc + 4) {
                    place.copy_from_slice(&word.to_le_bytes());
                } else if let Some(place) = memory.get_mut(pc..pc + 2) {
                    place.copy_from_slice(&supply.half_word().to_le_bytes());
                }
                machine.pc = pc as u64;
                compare_run(left, right, &machine, &memory, 10, counts);
                compare_step(left, right, &mut machine.clone(), &mut memory, counts);
            }
        }
        let (mut machine, _, _) = supply.aimed_regions_world(writable_code::aims()[0]);
        compare_run(left, right, &machine, &memory, 10, counts);
        compare_step(left, right, &mut machine, &mut memory, counts);
        turns::long(left, right, &mut supply, &mut memory, counts);
    }
}

pub fn print_counts(counts: &Counts) {
    let total = |stops: &BTreeMap<u64, u64>| stops.values().sum::<u64>();
    println!("compared {}, differences {}", counts.compared, counts.differing.max(counts.differences.len() as u64));
    println!(
        "single steps {}, steps in {} runs {}, steps in {} isolation pairs {}, sheets {}",
        total(&counts.step_stops),
        total(&counts.run_stops),
        counts.run_steps,
        total(&counts.isolation_stops),
        counts.isolation_steps,
        counts.sheet_lines.values().sum::<u64>()
    );
    println!("step stops {:?}", counts.step_stops);
    println!("run stops {:?}", counts.run_stops);
    println!("resume stops {:?}", counts.resume_stops);
    println!("runs that cross the mode:");
    for (kind, count) in &counts.crossings {
        println!("  {kind} {count}");
    }
    println!("sheet lines {:?}", counts.sheet_lines);
    println!("sheets by the fields of line 1: {:?}", counts.sheet_fields);
    println!("long sheets: {} valid, of up to {} words; refused with 31 32 33 34 35:", counts.long_valid, counts.long_most);
    for (place, _) in LONG_PLACES {
        let met = counts.long_refused.get(place).copied().unwrap_or_default();
        println!("  {place}: {}", met.map(|count| count.to_string()).join(" "));
    }
    println!("sheets with an empty budget, answered like those with c350: {:?}", counts.empty_pairs);
    println!("refused for another empty field: {}; so many steps before a word that stops, that leaves:", counts.empty_elsewhere);
    for (range, _, _) in EMPTY_STEPS {
        let met = counts.empty_lasting.get(range).copied().unwrap_or_default();
        println!("  {range}: {}", met.map(|count| count.to_string()).join(" "));
    }
    print_isolation(counts);
    turns::print(&counts.turns);
    apart::print(&counts.apart);
    println!("instructions (completed, stopped):");
    for (name, (completed, stopped)) in &counts.instructions {
        println!("  {name} {completed} {stopped}");
    }
    print_classes(counts);
    for difference in &counts.differences {
        println!("DIFFERENCE {difference}");
    }
}

fn print_isolation(counts: &Counts) {
    println!(
        "isolation stops {:?}, steps {}, pairs with different memories {}, pairs in which a run changed its memory {}, \
         pairs that ended in HFI mode and were asked again {}, pairs with more than three regions {}",
        counts.isolation_stops,
        counts.isolation_steps,
        counts.isolation_differing,
        counts.isolation_stored,
        counts.isolation_inside,
        counts.isolation_ten
    );
}

fn print_classes(counts: &Counts) {
    println!("h-words in HFI mode, the region chosen grants: {}", H_NAMES.join(" "));
    for (class, _, _) in H_CLASSES {
        let met = counts.h_words.get(class).copied().unwrap_or_default();
        println!("  {class}: {}", met.map(|count| count.to_string()).join(" "));
    }
    println!("regions aimed at code, each as {}: stops {:?}", WAYS.map(|way| way.0).join("; "), counts.code_stops);
    for (class, refused) in writable_code::class_names() {
        let met = counts.code_classes.get(class).copied().unwrap_or_default();
        println!("  {class}, {}: {met}", if refused { "refused" } else { "not refused" });
    }
    println!("of them, by the writable region and code, refused and not:");
    for ((data, code), met) in &counts.code_numbers {
        println!("  regions {data} and {code}: {}", met.map(|count| count.to_string()).join(" "));
    }
    println!("accesses aimed at two regions of a kind, and h-words by the region chosen:");
    for (shape, count) in ten_regions::by_shape(&counts.ten_regions) {
        println!("  {shape}: {count}");
    }
    println!("aimed fetches and jumps, and half-words in and out of HFI mode:");
    for (class, count) in &counts.fetches {
        println!("  {class}: {count}");
    }
    println!("words of question 8, as steps, in runs, on sheets, by what they get (0: none of 14, 23, 24, 25):");
    for (number, met) in hfi_rules::by_number(&counts.rules) {
        println!("  {number}: {}", met.map(|count| count.to_string()).join(" "));
    }
    println!("RV64M words by operands: {}", m_words::names().join(" "));
    for (class, _, _) in M_CLASSES {
        let met = counts.m_words.get(class).copied().unwrap_or_default();
        println!("  {class}: {}", met.map(|count| count.to_string()).join(" "));
    }
}

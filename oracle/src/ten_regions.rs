//! Accesses aimed at two regions of one kind that share bytes or touch, and
//! h-words that choose each explicit region by each register field, with the
//! answers that Job 7 gives them.

use std::collections::BTreeMap;

use crate::calls::{Answer, Call, Request};
use crate::compare::{Counts, Engine};
use crate::instruction::{encode, Instruction, LoadKind, StoreKind, LOAD_TABLE, STORE_TABLE};
use crate::machine::{Fault, Machine, Region, EXPLICIT, IMPLICIT_CODE, IMPLICIT_DATA};
use crate::overlap::locked_code_is_writable;
use crate::region::Op;
use crate::step::{load_size, store_size};
use crate::supply::Supply;

const ALL: u64 = u64::MAX;

/// The memory of aimed accesses; code is below `CODE_END`, data above it.
const LENGTH: usize = 0x1000;
const CODE_END: u64 = 0x100;

/// How two regions of a kind lie, and which of them grants.
#[derive(Clone, Copy, Debug, PartialEq, Eq, PartialOrd, Ord)]
pub enum Shape {
    /// Both have the bytes, the lower number lacks the permission.
    Hidden,
    /// Both have them, the higher number lacks it.
    Granted,
    /// The lower number would have them but breaks its rule.
    Broken,
    /// The lower number has later bytes alone and lacks the permission.
    Into,
    /// The lower number has the first bytes alone, the higher all of them but lacks the permission.
    Out,
    /// The lower number has one byte between the first and the last and lacks the permission.
    Inside,
    /// They touch, and both grant.
    Across,
    /// They touch, and the one of the later bytes lacks the permission.
    Second,
    /// They touch, and the one of the first bytes does.
    First,
}

const NESTED: [Shape; 6] = [Shape::Hidden, Shape::Granted, Shape::Broken, Shape::Into, Shape::Out, Shape::Inside];
const TOUCHING: [Shape; 3] = [Shape::Across, Shape::Second, Shape::First];

#[derive(Clone, Copy, Debug, PartialEq, Eq, PartialOrd, Ord)]
pub enum Aim {
    /// Of nested regions the lower number comes first, of touching ones the one with the first bytes.
    Pair { shape: Shape, one: usize, other: usize, op: u64 },
    /// An h-word through a region; registers are rs1 and rd or rs2.
    Chosen { region: usize, rs1: u64, load: bool },
}

const LOAD: u64 = 1;
const STORE: u64 = 2;
const FETCH: u64 = 3;

fn pairs(numbers: &[usize], ops: &[u64]) -> Vec<Aim> {
    let mut all = Vec::new();
    for one in numbers.iter().copied() {
        for other in numbers.iter().copied().filter(|other| *other != one) {
            let nested: &[Shape] = if one < other { &NESTED } else { &[] };
            for shape in nested.iter().chain(&TOUCHING).copied() {
                all.extend(ops.iter().map(|op| Aim::Pair { shape, one, other, op: *op }));
            }
        }
    }
    all
}

/// Every aim of a round.
pub fn aims() -> Vec<Aim> {
    let mut all = pairs(&IMPLICIT_DATA, &[LOAD, STORE]);
    all.extend(pairs(&IMPLICIT_CODE, &[FETCH]));
    for region in EXPLICIT {
        for rs1 in 0..16 {
            all.extend([true, false].map(|load| Aim::Chosen { region, rs1, load }));
        }
    }
    all
}

impl Aim {
    fn name(&self) -> String {
        match self {
            Aim::Pair { shape, one, other, op } => format!("{shape:?}, regions {one} and {other}, op {op}"),
            Aim::Chosen { region, rs1, load } => format!("region {region} by x{rs1}, {}", if *load { "h-load" } else { "h-store" }),
        }
    }
}

/// A step that is aimed, and what it has to answer.
pub struct Aimed {
    pub call: Call,
    pub told: Answer,
}

/// A region of 2^k bytes that has this byte.
fn around(byte: u64, k: u64, permission: u64) -> Region {
    Region { base: byte & ALL << k, bound: ALL << k, permission }
}

impl Supply {
    /// A machine in HFI mode at a word in code, whose data and code regions
    /// have nothing of memory above `CODE_END`, and its memory.
    fn plain_world(&mut self) -> (Machine, Vec<u8>) {
        let mut machine = self.well_formed_machine(LENGTH);
        machine.mode = 1;
        machine.pc = self.below(CODE_END / 4) * 4;
        for number in IMPLICIT_DATA.into_iter().chain(IMPLICIT_CODE) {
            machine.regions[number - 1] = match self.below(3) {
                0 => Region::default(),
                1 => Region { base: 0x7000_0000_0000, bound: ALL << 6, permission: if IMPLICIT_CODE.contains(&number) { 4 } else { 3 } },
                // a base that is no multiple
                _ => Region { base: 0x804, bound: ALL << 11, permission: 0 },
            };
        }
        machine.regions[2] = Region { base: 0, bound: ALL << 8, permission: 4 };
        (machine, (0..LENGTH).map(|_| self.next() as u8).collect())
    }

    /// The two regions of a pair and the first address of an access of so many
    /// bytes; where a byte is refused, the region that does and its place.
    fn paired(&mut self, shape: Shape, size: u64, wanted: u64, others: u64) -> (Region, Region, u64, Option<(bool, u64)>) {
        let lacking = others & !wanted & self.below(4);
        let grants = wanted | (others & self.below(4));
        let (k, larger) = (4 + self.below(4), 4 + self.below(5));
        // A multiple of 256, and a place within the 16 bytes from it on.
        let edge = CODE_END * (2 + self.below(12));
        let start = edge + self.below(16 - size + 1);
        // The last so many bytes of an access lie past an edge.
        let late = if size > 1 { 1 + self.below(size - 1) } else { 0 };
        match shape {
            Shape::Hidden => (around(edge, k, lacking), around(edge, larger, grants), start, Some((true, start))),
            Shape::Granted => (around(edge, k, grants), around(edge, larger, lacking), start, None),
            Shape::Broken => {
                let broken = Region { base: edge + 4, ..around(edge, k, lacking) };
                (broken, around(edge, larger, grants), start, None)
            }
            Shape::Into => {
                let place = edge + 0x40;
                (around(place, 3, lacking), around(edge, 8, grants), place + late - size, Some((true, place)))
            }
            Shape::Out => {
                let place = edge + 0x40;
                (around(place - 8, 3, grants), around(edge, 8, lacking), place + late - size, Some((false, place)))
            }
            Shape::Inside => {
                let hole = start + 1 + self.below(size - 2);
                (around(hole, 0, lacking), around(edge, larger, grants), start, Some((true, hole)))
            }
            Shape::Across | Shape::Second | Shape::First => {
                let (first, second) = (around(edge - 1, k, grants), around(edge, larger, grants));
                let start = edge + late - size;
                match shape {
                    Shape::Across => (first, second, start, None),
                    Shape::Second => (first, Region { permission: lacking, ..second }, start, Some((false, edge))),
                    _ => (Region { permission: lacking, ..first }, second, start, Some((true, start))),
                }
            }
        }
    }

    /// An ordinary load or store over two regions.
    fn paired_data(&mut self, shape: Shape, one: usize, other: usize, op: u64) -> Aimed {
        let (mut machine, mut bytes) = self.plain_world();
        let above = match shape {
            Shape::Hidden | Shape::Granted | Shape::Broken => 0,
            Shape::Inside => 2,
            _ => 1,
        };
        let (load, store) = self.of_some_size(above);
        let size = if op == LOAD { load_size(load) } else { store_size(store) };
        let (first, second, start, refused) = self.paired(shape, size, op, 3);
        (machine.regions[one - 1], machine.regions[other - 1]) = (first, second);
        let (rs1, register) = (1 + self.below(31), self.below(32));
        let offset = self.below(4096) as i64 - 2048;
        machine.set(rs1, start.wrapping_sub(offset as u64));
        unlock_if_refused(&mut machine);
        let word = match op {
            LOAD => Instruction::Load { kind: load, rd: register, rs1, offset },
            _ => Instruction::Store { kind: store, rs1, rs2: register, offset },
        };
        put(&machine, &mut bytes, &word);
        let refused = refused.map(|(first, byte)| Fault { occurred: 1, region: if first { one } else { other } as u64, op, address: byte });
        told(machine, bytes, refused, &word, start)
    }

    /// A fetch of a NOP over two regions. A word has four bytes, so regions
    /// that touch have two each, and one inside another has one or two.
    fn paired_code(&mut self, shape: Shape, one: usize, other: usize) -> Aimed {
        let (mut machine, mut bytes) = self.plain_world();
        machine.regions[2] = Region::default();
        let pc = machine.pc;
        let (small, large) = (2 + self.below(6), 2 + self.below(7));
        let place = self.below(2); // the word's last two bytes, or its last one
        let (first, second, refused) = match shape {
            Shape::Hidden => (around(pc, small, 0), around(pc, large, 4), Some((one, pc))),
            Shape::Granted => (around(pc, small, 4), around(pc, large, 0), None),
            Shape::Broken => (Region { base: pc | 2, ..around(pc, 2, 0) }, around(pc, large, 4), None),
            Shape::Into => (around(pc + 2 + place, 1 - place, 0), around(pc, large, 4), Some((one, pc + 2 + place))),
            Shape::Out => (around(pc, 1 - place, 4), around(pc, large, 0), Some((other, pc + 2 - place))),
            Shape::Inside => (around(pc + 1 + place, 0, 0), around(pc, large, 4), Some((one, pc + 1 + place))),
            Shape::Across => (around(pc, 1, 4), around(pc + 2, 1, 4), None),
            Shape::Second => (around(pc, 1, 4), around(pc + 2, 1, 0), Some((other, pc + 2))),
            Shape::First => (around(pc, 1, 0), around(pc + 2, 1, 4), Some((one, pc))),
        };
        (machine.regions[one - 1], machine.regions[other - 1]) = (first, second);
        unlock_if_refused(&mut machine);
        let word = Instruction::Fence { rd: self.below(32), rs1: self.below(32), spare: self.below(4096) };
        put(&machine, &mut bytes, &word);
        let refused = refused.map(|(region, byte)| Fault { occurred: 1, region: region as u64, op: FETCH, address: byte });
        told(machine, bytes, refused, &word, pc)
    }

    /// An h-word of any width through a region by these registers; the other
    /// explicit regions grant other bytes.
    fn chosen(&mut self, region: usize, rs1: u64, load: bool) -> Aimed {
        let (mut machine, mut bytes) = self.plain_world();
        for (n, number) in EXPLICIT.into_iter().enumerate() {
            machine.regions[number - 1] = Region { base: 0x400 + 0x200 * n as u64 + self.below(64), bound: 0x100 + self.below(64), permission: 3 };
        }
        let (wide, narrow) = self.of_some_size(0);
        let size = if load { load_size(wide) } else { store_size(narrow) };
        let own = machine.regions[region - 1];
        let place = self.below(own.bound - size + 1);
        let offset = if rs1 == 0 { place as i64 } else { self.below(4096) as i64 - 2048 };
        let offset = offset.min(place as i64);
        machine.set(rs1, (place as i64 - offset) as u64);
        unlock_if_refused(&mut machine);
        let other = self.below(16);
        let word = match load {
            true => Instruction::HLoad { kind: wide, region: region as u64, rd: other, rs1, offset },
            false => Instruction::HStore { kind: narrow, region: region as u64, rs1, rs2: other, offset },
        };
        put(&machine, &mut bytes, &word);
        told(machine, bytes, None, &word, own.base + place)
    }

    /// A load and a store, both of more bytes than these.
    fn of_some_size(&mut self, above: u64) -> (LoadKind, StoreKind) {
        loop {
            let (load, store) = (self.pick(&LOAD_TABLE).0, self.pick(&STORE_TABLE).0);
            if load_size(load) > above && store_size(store) > above {
                return (load, store);
            }
        }
    }

    pub fn aimed_at_ten(&mut self, aim: Aim) -> Aimed {
        match aim {
            Aim::Pair { shape, one, other, op: FETCH } => self.paired_code(shape, one, other),
            Aim::Pair { shape, one, other, op } => self.paired_data(shape, one, other, op),
            Aim::Chosen { region, rs1, load } => self.chosen(region, rs1, load),
        }
    }
}

fn unlock_if_refused(machine: &mut Machine) {
    if locked_code_is_writable(machine) {
        machine.options -= 1;
    }
}

fn put(machine: &Machine, bytes: &mut [u8], word: &Instruction) {
    let at = machine.pc as usize;
    bytes[at..at + 4].copy_from_slice(&encode(word).expect("in range").to_le_bytes());
}

/// The little-endian number of so many bytes.
fn number(bytes: &[u8]) -> u64 {
    bytes.iter().rev().fold(0, |value, byte| value << 8 | *byte as u64)
}

fn extended(value: u64, kind: LoadKind) -> u64 {
    match kind {
        LoadKind::Byte => value as i8 as u64,
        LoadKind::Half => value as i16 as u64,
        LoadKind::Word => value as i32 as u64,
        _ => value,
    }
}

/// The step of a word and its answer: refused with this record, or done at this address.
fn told(machine: Machine, bytes: Vec<u8>, refused: Option<Fault>, word: &Instruction, address: u64) -> Aimed {
    let (mut left, mut after, at) = (machine, bytes.clone(), address as usize);
    let stop = match refused {
        Some(fault) => {
            left.fault = fault;
            if fault.op == Op::Fetch.number() { 11 } else { 16 }
        }
        None => {
            left.pc += 4;
            match *word {
                Instruction::Load { kind, rd, .. } | Instruction::HLoad { kind, rd, .. } => {
                    left.set(rd, extended(number(&bytes[at..at + load_size(kind) as usize]), kind));
                }
                Instruction::Store { kind, rs2, .. } | Instruction::HStore { kind, rs2, .. } => {
                    let size = store_size(kind) as usize;
                    after[at..at + size].copy_from_slice(&machine.get(rs2).to_le_bytes()[..size]);
                }
                _ => {}
            }
            0
        }
    };
    let call = Call { name: String::new(), request: Request::Step, machine, length: bytes.len(), bytes };
    Aimed { call, told: Answer { stop, count: 0, address: 0, machine: left, bytes: after } }
}

/// How often each aim was met, as a step and as a run of 1.
pub type Met = BTreeMap<Aim, u64>;

/// The aims that were not met.
pub fn unmet(met: &Met) -> Vec<String> {
    aims().iter().filter(|aim| !met.contains_key(aim)).map(|aim| format!("no access of: {}", aim.name())).collect()
}

/// How many accesses of each shape, and through each region, were met.
pub fn by_shape(met: &Met) -> BTreeMap<String, u64> {
    let mut all = BTreeMap::new();
    for (aim, count) in met {
        let key = match aim {
            Aim::Pair { shape, op, .. } => format!("{shape:?}, {}", ["", "load", "store", "fetch"][*op as usize]),
            Aim::Chosen { region, load, .. } => format!("h-{} through region {region}", if *load { "load" } else { "store" }),
        };
        *all.entry(key).or_default() += count;
    }
    all
}

/// Each aim as a step and as a run of 1 step, both engines.
pub fn compare(left: &dyn Engine, right: &dyn Engine, supply: &mut Supply, counts: &mut Counts) {
    for aim in aims() {
        let Aimed { call, told } = supply.aimed_at_ten(aim);
        let run = Call { request: Request::Run(1), ..call.clone() };
        let ran = match told.stop {
            0 => Answer { stop: 21, count: 1, ..told.clone() },
            _ => told.clone(),
        };
        *counts.ten_regions.entry(aim).or_default() += 1;
        for (call, told) in [(call, told), (run, ran)] {
            let answer = call.answer(left).expect("the measure answers");
            if answer != told {
                counts.difference(format!("{}: {}is answered by {}not {}", aim.name(), call.written(), answer.written(""), told.written("")));
            }
            let Some(other) = call.answer(right) else { continue };
            counts.compared += 1;
            if answer != other {
                let both = [answer.written(&left.title()), other.written(&right.title())];
                counts.difference(format!("{}: {}{}{}", aim.name(), call.written(), both[0], both[1]));
            }
        }
    }
}

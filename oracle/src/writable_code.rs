//! Writable regions aimed at the edges of code, put to an engine in each way
//! that Job 5 asks or does not ask, and the classes of regions that a
//! comparison has to meet. With Job 7 each explicit region, each region of
//! ordinary data and each code region takes its turn, and a lower region of the
//! kind hides all or part of a later one.

use std::collections::BTreeMap;

use crate::calls::{Answer, Call, Request};
use crate::compare::{Counts, Engine};
use crate::instruction::{encode, HfiKind, Instruction};
use crate::machine::{
    region_kind, with_others_zero, Machine, Region, RegionKind, EXECUTE, EXPLICIT, IMPLICIT_CODE, IMPLICIT_DATA, KINDS, LARGE, REGIONS, WRITE,
};
use crate::numbers::{bit, power};
use crate::overlap::{extent, Interval};
use crate::region::rule_of_kind;
use crate::supply::Supply;

const ALL: u64 = u64::MAX;
const TOP: u64 = 1 << 48;

/// The memory of aimed regions. It is short, so that regions reach past it.
pub const LENGTH: usize = 256;

/// Where a writable region, of this number, lies beside code.
#[derive(Clone, Copy, Debug, PartialEq, Eq)]
pub enum Side {
    /// Code's first byte alone is shared.
    First,
    /// Its last one.
    Last,
    /// Inside code, at neither end if there is room.
    Within,
    /// All of code and more.
    Around,
    /// The same bytes.
    Same,
    /// It ends where code begins.
    Before,
    /// It begins where code ends.
    After,
}

pub const SIDES: [Side; 7] = [Side::First, Side::Last, Side::Within, Side::Around, Side::Same, Side::Before, Side::After];

/// Which of what is needed for 4 is left out, if any.
#[derive(Clone, Copy, Debug, PartialEq, Eq)]
pub enum Lack {
    Nothing,
    /// The writable region breaks its rule.
    Rule,
    Write,
    CodeRule,
    Execute,
    /// A lower data region without write has all bytes of the writable one.
    Hidden,
    /// A lower code region without execute has all bytes of code.
    CodeHidden,
    /// A lower data region without write has half of the bytes: nothing is left out.
    HalfHidden,
    /// A lower code region without execute has half of them.
    HalfCodeHidden,
}

/// What regions are aimed at: the writable one, its side, where code lies, and
/// what is left out.
#[derive(Clone, Copy, Debug, PartialEq, Eq)]
pub struct Aim {
    pub writable: Writable,
    pub side: Side,
    pub code: Code,
    pub lack: Lack,
}

#[derive(Clone, Copy, Debug, PartialEq, Eq)]
pub enum Writable {
    Small,
    Large,
    Data,
    /// An explicit one and one of ordinary data.
    Both,
}

#[derive(Clone, Copy, Debug, PartialEq, Eq)]
pub enum Code {
    /// In memory.
    Low,
    /// Past memory's end, all of it.
    Past,
    /// Its last byte is the last below 2^48.
    Top,
    /// 1 or 2 bytes.
    Tiny,
    /// From 0 on past memory's end, the writable region past it.
    Over,
}

/// Every aim of a round.
pub fn aims() -> Vec<Aim> {
    let aim = |writable, side, code| Aim { writable, side, code, lack: Lack::Nothing };
    let mut all = Vec::new();
    for side in SIDES {
        for writable in [Writable::Small, Writable::Large, Writable::Data, Writable::Both] {
            all.push(aim(writable, side, Code::Low));
        }
        for code in [Code::Past, Code::Tiny] {
            all.extend([Writable::Small, Writable::Data].map(|writable| aim(writable, side, code)));
        }
    }
    for writable in [Writable::Small, Writable::Large, Writable::Data] {
        let sides = [Side::Last, Side::Within, Side::Same];
        all.extend(sides.map(|side| aim(writable, side, Code::Top)));
        all.push(aim(writable, Side::Within, Code::Over));
        // Within code, or with code's base.
        all.extend([Lack::Rule, Lack::Write].map(|lack| Aim { lack, ..aim(writable, Side::Within, Code::Low) }));
        all.extend([Lack::CodeRule, Lack::Execute].map(|lack| Aim { lack, ..aim(writable, Side::Around, Code::Low) }));
    }
    all
}

/// Those of a round since Job 7.
pub fn hiding_aims() -> Vec<Aim> {
    let mut all = Vec::new();
    for side in [Side::Around, Side::Same] {
        for lack in [Lack::Hidden, Lack::HalfHidden] {
            all.extend([Code::Low, Code::Past].map(|code| Aim { writable: Writable::Data, side, code, lack }));
        }
        for lack in [Lack::CodeHidden, Lack::HalfCodeHidden] {
            let all_kinds = [Writable::Small, Writable::Large, Writable::Data];
            all.extend(all_kinds.map(|writable| Aim { writable, side, code: Code::Low, lack }));
        }
    }
    all
}

impl Supply {
    /// A code region, 2^k bytes from a base on. A large region 1 needs room.
    fn aimed_code(&mut self, aim: Aim) -> (u64, u32) {
        let large = aim.writable == Writable::Large;
        let k = match aim.code {
            Code::Tiny => self.below(2) as u32,
            _ if large => 18 + self.below(4) as u32,
            Code::Over => 12 + self.below(8) as u32,
            _ => 2 + self.below(6) as u32,
        };
        let blocks = if large { 4 } else { LENGTH as u64 >> k };
        // From 1 on, so that something has room before it.
        let place = match aim.code {
            Code::Low | Code::Tiny => 1 + self.below(blocks - 1),
            Code::Past => blocks + self.below((1 << 30) >> k),
            Code::Top => (TOP >> k) - 1,
            Code::Over => 0,
        };
        (place << k, k)
    }

    /// An implicit region on that side of code. Two such regions lie apart, or
    /// one is a part of the other, so First and Last are one byte.
    fn aimed_data(&mut self, side: Side, code: (u64, u32)) -> Region {
        let (base, k) = code;
        let inner = self.below(k.max(1) as u64) as u32;
        let (start, size) = match side {
            Side::First => (base, 0),
            Side::Last => (base + (1 << k) - 1, 0),
            Side::Within => (base + (self.below(1 << (k - inner)) << inner), inner),
            Side::Same => (base, k),
            Side::Before => (base.saturating_sub(1 << inner), inner),
            Side::After => (base + (1 << k), inner),
            Side::Around if self.once_in(8) => (0, 48),
            Side::Around => {
                let wider = k + 1 + self.below(4) as u32;
                (base >> wider << wider, wider)
            }
        };
        Region { base: start, bound: ALL << size, permission: 2 + self.below(2) }
    }

    /// An explicit region on that side of code; a large one in units of 65,536.
    fn aimed_explicit(&mut self, side: Side, code: (u64, u32), large: bool) -> Region {
        let unit = if large { 65_536 } else { 1 };
        let (start, size) = (code.0 / unit, (1u64 << code.1) / unit);
        let (before, after) = (1 + self.below(start.clamp(1, 40)), 1 + self.below(40));
        let inner = self.below(size.saturating_sub(2).max(1));
        let whole = if large { TOP / unit } else { 1 << 32 };
        let (first, end) = match side {
            Side::First => (start.saturating_sub(self.below(before)), start + 1),
            Side::Last => (start + size - 1, start + size + self.below(after)),
            Side::Within if size < 3 => (start, start + 1),
            Side::Within => (start + 1 + inner, start + 2 + inner + self.below(size - 2 - inner)),
            Side::Around if self.once_in(8) => (0, whole),
            Side::Around => (start.saturating_sub(before), start + size + after),
            Side::Same => (start, start + size),
            Side::Before => (start.saturating_sub(before), start),
            Side::After => (start + size, start + size + after),
        };
        let top = if side == Side::Last || side == Side::Around { end.min(TOP / unit) } else { end };
        let permission = 2 + self.below(2) + if large { 1 << LARGE } else { 0 };
        Region { base: first * unit, bound: (top - first) * unit, permission }
    }

    /// The numbers that take their turn: of an explicit region, of ordinary
    /// data and of code. One that is hidden has lower ones of its kind.
    fn aimed_numbers(&mut self, aim: Aim) -> [usize; 3] {
        if !self.ten() {
            return [1, 2, 3];
        }
        let data = match aim.lack {
            Lack::Hidden | Lack::HalfHidden => self.pick(&IMPLICIT_DATA[1..]),
            _ => self.pick(&IMPLICIT_DATA),
        };
        let code = match aim.lack {
            Lack::CodeHidden | Lack::HalfCodeHidden => 10,
            _ => self.pick(&IMPLICIT_CODE),
        };
        [self.pick(&EXPLICIT), data, code]
    }

    /// All regions: the three of `aimed_regions` in their places, others zero,
    /// far from code or broken, and those that hide.
    fn placed_regions(&mut self, aim: Aim, numbers: [usize; 3]) -> [Region; REGIONS] {
        let three = self.aimed_regions(aim);
        let mut regions = with_others_zero([Region::default(); 3]);
        for number in 1..=REGIONS {
            if self.ten() && self.once_in(2) {
                regions[number - 1] = self.other_region(number);
            }
        }
        numbers.into_iter().zip(three).for_each(|(number, region)| regions[number - 1] = region);
        self.hide(aim, numbers, &mut regions);
        regions
    }

    /// A region far from code, or one that breaks its rule: 64 bytes from no
    /// multiple on, or past 2^48; or an explicit one that has code, without
    /// write. A code region lacks execute.
    fn other_region(&mut self, number: usize) -> Region {
        let far = 0x6000_0000_0000 + 0x1000 * number as u64;
        match region_kind(number) {
            RegionKind::Explicit if self.once_in(3) => Region { base: 0, bound: 1 << 32, permission: 1 },
            RegionKind::Explicit => Region { base: self.pick(&[far, TOP]), bound: 0x40, permission: 3 },
            RegionKind::ImplicitData => Region { base: self.pick(&[far, 0x44]), bound: ALL << 6, permission: 3 },
            RegionKind::ImplicitCode => Region { base: self.pick(&[far, 0x44]), bound: ALL << 6, permission: 0 },
        }
    }

    /// Puts a lower region over all of a later one, or over its first half.
    fn hide(&mut self, aim: Aim, numbers: [usize; 3], regions: &mut [Region; REGIONS]) {
        let (number, all) = match aim.lack {
            Lack::Hidden | Lack::HalfHidden => (numbers[1], &IMPLICIT_DATA[..]),
            Lack::CodeHidden | Lack::HalfCodeHidden => (numbers[2], &IMPLICIT_CODE[..]),
            _ => return,
        };
        let lower: Vec<usize> = all.iter().copied().filter(|lower| *lower < number).collect();
        let (own, code) = (regions[number - 1], regions[numbers[2] - 1]);
        let place = self.pick(&lower) - 1;
        regions[place] = match aim.lack {
            Lack::Hidden | Lack::CodeHidden => Region { permission: 0, ..own },
            // Half of code, which both regions have.
            _ => Region { base: code.base, bound: ALL << (code.bound.trailing_zeros() - 1), permission: 0 },
        };
        if all.len() == 4 && self.once_in(2) {
            regions[place].permission = 1;
        }
    }

    /// Regions that are as the aim says; the one that is not aimed at is unset,
    /// far from code, or there without the write permission.
    fn aimed_regions(&mut self, aim: Aim) -> [Region; 3] {
        let code = self.aimed_code(aim);
        let region = Region { base: code.0, bound: ALL << code.1, permission: 4 };
        let idle = |supply: &mut Supply, kept: Region, far: Region| match supply.below(3) {
            0 => Region::default(),
            1 => far,
            _ => Region { permission: kept.permission & !(1 << WRITE), ..kept },
        };
        // Past memory's end: as if code began there.
        let seen = if aim.code == Code::Over { (1 << (code.1 - 1), code.1 - 1) } else { code };
        let one = self.aimed_explicit(aim.side, seen, aim.writable == Writable::Large);
        let two = self.aimed_data(aim.side, seen);
        let far = Region { base: 0x7000_0000_0000, bound: 0x40, permission: 3 };
        let mut regions = match aim.writable {
            Writable::Both => [one, two, region],
            Writable::Data => [idle(self, one, far), two, region],
            _ => [one, idle(self, two, Region { bound: ALL << 6, ..far }), region],
        };
        self.leave_out(aim, &mut regions);
        regions
    }

    fn leave_out(&mut self, aim: Aim, regions: &mut [Region; 3]) {
        let number = if aim.writable == Writable::Data { 2 } else { 1 };
        let writable = &mut regions[number - 1];
        match aim.lack {
            Lack::Nothing | Lack::Hidden | Lack::HalfHidden | Lack::CodeHidden | Lack::HalfCodeHidden => {}
            Lack::Write => writable.permission &= !(1 << WRITE),
            Lack::Execute => regions[2].permission = 0,
            // a base that is no multiple, or a hole in the mask
            Lack::CodeRule if self.once_in(2) => regions[2].base += 1 + self.below(3),
            Lack::CodeRule => regions[2].bound ^= 1 << (8 + self.below(56).max(20)),
            Lack::Rule if number == 2 && self.once_in(2) => writable.bound ^= 1 << (8 + self.below(56).max(20)),
            Lack::Rule if number == 2 => (writable.base, writable.bound) = (writable.base | 4, ALL << 3),
            Lack::Rule if self.once_in(2) => writable.bound = TOP - writable.base + self.pick(&[65_536, 1 << 60]),
            Lack::Rule if aim.writable == Writable::Large => writable.bound += 1 + self.below(65_535),
            Lack::Rule => writable.bound = self.pick(&[0, (1 << 32) + 1, (1 << 32) - writable.base + 1, ALL, ALL - writable.base + 1]),
        }
    }

    /// A machine in locked HFI mode with such regions, at a word that does no
    /// harm, or anywhere, and its memory.
    pub fn aimed_regions_world(&mut self, aim: Aim) -> (Machine, Vec<u8>, [usize; 3]) {
        let mut memory = vec![0; LENGTH];
        let mut machine = self.well_formed_machine(LENGTH);
        (machine.mode, machine.options) = (1, self.below(16) | 1);
        let numbers = self.aimed_numbers(aim);
        machine.regions = self.placed_regions(aim, numbers);
        let code = machine.regions[numbers[2] - 1].base;
        machine.pc = if code < LENGTH as u64 { code & !3 } else { self.below(LENGTH as u64 / 4) * 4 };
        for at in (0..LENGTH).step_by(4) {
            memory[at] = 0x13; // NOP
        }
        if self.once_in(4) {
            machine.pc = self.edge();
        }
        (machine, memory, numbers)
    }
}

/// The ways in which regions are put to an engine, by name, and what is
/// answered where a byte is writable and executable: 0 for whatever is not 4 or 22.
pub const WAYS: [(&str, u64); 14] = [
    ("step", 4),
    ("run", 4),
    ("run of 0", 4),
    ("enter", 22),
    ("enter with jump", 22),
    ("enter with jump to no multiple of 2", 22),
    ("step unlocked", 0),
    ("run outside", 0),
    ("resume", 0),
    ("enter unlocked", 0),
    ("enter inside, unlocked", 0),
    ("enter, operand above 15", 14),
    ("not well formed", 3),
    ("budget above 1,000,000", 2),
];

/// Puts an enter at some place of memory, with this operand; a target is for the form with jump.
fn enter(supply: &mut Supply, machine: &mut Machine, bytes: &mut [u8], operand: u64, target: Option<u64>) -> Request {
    machine.pc = supply.below(LENGTH as u64 / 4) * 4;
    (machine.x[5], machine.x[6]) = (operand, target.unwrap_or(0));
    let (kind, rs2) = if target.is_some() { (HfiKind::EnterJump, 6) } else { (HfiKind::Enter, 0) };
    let word = encode(&Instruction::Hfi { kind, rd: 0, rs1: 5, rs2 }).expect("in range");
    let at = machine.pc as usize;
    bytes[at..at + 4].copy_from_slice(&word.to_le_bytes());
    // A third of them within a run.
    if supply.once_in(3) {
        Request::Run(1)
    } else {
        Request::Step
    }
}

/// The machine and the request of a way.
fn put(supply: &mut Supply, way: usize, locked: &Machine, memory: &[u8]) -> Call {
    let (mut machine, mut bytes) = (*locked, memory.to_vec());
    let options = locked.options;
    if [3, 4, 5, 7, 9, 11].contains(&way) {
        machine.mode = 0;
    }
    if [6, 10].contains(&way) {
        machine.options -= 1;
    }
    if way == 12 {
        machine.x[0] = 1;
    }
    let m = &mut machine;
    let request = match way {
        0 | 6 => Request::Step,
        1 | 7 | 12 => Request::Run(2),
        2 => Request::Run(0),
        3 | 10 => enter(supply, m, &mut bytes, options, None),
        4 => enter(supply, m, &mut bytes, options, Some(0x40)),
        5 => enter(supply, m, &mut bytes, options, Some(0x41)),
        8 => Request::Resume(7),
        9 => enter(supply, m, &mut bytes, options - 1, None),
        11 => enter(supply, m, &mut bytes, options + 16, Some(0x41)),
        _ => Request::Run(1_000_001),
    };
    Call { name: WAYS[way].0.to_string(), request, machine, length: bytes.len(), bytes }
}

/// Regions of an aim, put in a way.
pub fn aimed_call(supply: &mut Supply, aim: Aim, way: usize) -> Call {
    let (machine, memory, _) = supply.aimed_regions_world(aim);
    put(supply, way, &machine, &memory)
}

/// The regions of a machine that are aimed, with all bytes of those that keep
/// their rule: an explicit one (1 below), one of ordinary data (2), code (3).
pub struct Seen {
    regions: [Region; 3],
    /// Regions 1 and 2 with write permission, 3 with execute.
    own: [Option<Interval>; 3],
    length: u128,
}

impl Seen {
    pub fn of(machine: &Machine, numbers: [usize; 3], length: usize) -> Seen {
        let regions = numbers.map(|number| machine.regions[number - 1]);
        let own = std::array::from_fn(|n| {
            let wanted = if n == 2 { EXECUTE } else { WRITE };
            let granted = bit(regions[n].permission, wanted);
            extent(KINDS[n], &regions[n]).filter(|_| granted)
        });
        Seen { regions, own, length: length as u128 }
    }

    /// What region n shares with code.
    fn shared(&self, n: usize) -> Option<Interval> {
        self.own[n - 1]?.meet(self.own[2]?)
    }

    fn refused(&self) -> bool {
        self.shared(1).is_some() || self.shared(2).is_some()
    }

    /// A test of region n and code, where these share some byte.
    fn meets(&self, n: usize, test: fn(Interval, Interval) -> bool) -> bool {
        self.shared(n).is_some() && self.own[n - 1].zip(self.own[2]).is_some_and(|(own, code)| test(own, code))
    }

    /// The same where neither region shares any.
    fn apart(&self, n: usize, test: fn(Interval, Interval) -> bool) -> bool {
        !self.refused() && self.own[n - 1].zip(self.own[2]).is_some_and(|(own, code)| test(own, code))
    }

    fn large(&self) -> bool {
        bit(self.regions[0].permission, LARGE)
    }

    /// Region n would be refused if it kept its rule, or had the permission.
    fn spared(&self, n: usize, broken: bool) -> bool {
        let region = &self.regions[n - 1];
        let place = region.base as u128;
        let good = rule_of_kind(KINDS[n - 1], region);
        let granted = bit(region.permission, if n == 3 { EXECUTE } else { WRITE });
        let others = if n == 3 { &self.own[..2] } else { &self.own[2..] };
        let inside = others.iter().flatten().any(|own| own.start <= place && place < own.end);
        !self.refused() && inside && if broken { granted && !good } else { good && !granted }
    }
}

fn one_byte(shared: Interval) -> bool {
    shared.end - shared.start == 1
}

fn several(code: Interval) -> bool {
    code.end - code.start > 1
}

fn first(own: Interval, code: Interval) -> bool {
    several(code) && own.meet(code).is_some_and(|shared| one_byte(shared) && shared.start == code.start)
}

fn last(own: Interval, code: Interval) -> bool {
    several(code) && own.meet(code).is_some_and(|shared| one_byte(shared) && shared.end == code.end)
}

fn within(own: Interval, code: Interval) -> bool {
    code.start < own.start && own.end < code.end
}

fn around(own: Interval, code: Interval) -> bool {
    own != code && own.start <= code.start && code.end <= own.end
}

fn ends_before(own: Interval, code: Interval) -> bool {
    own.end == code.start
}

fn begins_after(own: Interval, code: Interval) -> bool {
    own.start == code.end
}

fn same(own: Interval, code: Interval) -> bool {
    own == code
}

fn tiny(_: Interval, code: Interval) -> bool {
    code.end - code.start < 4
}

fn at_the_top(own: Interval, code: Interval) -> bool {
    own.meet(code).is_some_and(|shared| shared.end == power(48))
}

/// What regions can be: the name, whether a byte is writable and executable
/// then, and the test. Regions may be of several.
type Class = (&'static str, bool, fn(&Seen) -> bool);

pub const CLASSES: [Class; 41] = [
    ("region 1 alone has code", true, |s| s.shared(1).is_some() && s.shared(2).is_none()),
    ("region 2 alone has code", true, |s| s.shared(2).is_some() && s.shared(1).is_none()),
    ("both regions have code", true, |s| s.shared(1).is_some() && s.shared(2).is_some()),
    ("a small region 1 has code", true, |s| s.shared(1).is_some() && !s.large()),
    ("a large region 1 has code", true, |s| s.shared(1).is_some() && s.large()),
    ("region 1 without read has code", true, |s| s.shared(1).is_some() && s.regions[0].permission & 1 == 0),
    ("region 2 without read has code", true, |s| s.shared(2).is_some() && s.regions[1].permission & 1 == 0),
    ("region 1 has code's first byte alone", true, |s| s.meets(1, first)),
    ("region 2 has code's first byte alone", true, |s| s.meets(2, first)),
    ("region 1 has code's last byte alone", true, |s| s.meets(1, last)),
    ("region 2 has code's last byte alone", true, |s| s.meets(2, last)),
    ("region 1 is inside code", true, |s| s.meets(1, within)),
    ("region 2 is inside code", true, |s| s.meets(2, within)),
    ("region 1 has all of code and more", true, |s| s.meets(1, around)),
    ("region 2 has all of code and more", true, |s| s.meets(2, around)),
    ("region 1 is code", true, |s| s.meets(1, same)),
    ("region 2 is code", true, |s| s.meets(2, same)),
    ("a large region 1 is inside code", true, |s| s.large() && s.meets(1, within)),
    ("a large region 1 has all of code and more", true, |s| s.large() && s.meets(1, around)),
    ("region 1 has code past memory's end alone", true, |s| s.shared(1).is_some_and(|shared| shared.start >= s.length) && s.shared(2).is_none()),
    ("region 2 has code past memory's end alone", true, |s| s.shared(2).is_some_and(|shared| shared.start >= s.length) && s.shared(1).is_none()),
    ("region 1 has code below 2^48 to the last byte", true, |s| s.meets(1, at_the_top)),
    ("region 2 has code below 2^48 to the last byte", true, |s| s.meets(2, at_the_top)),
    ("region 1 has code of 1 to 3 bytes", true, |s| s.meets(1, tiny)),
    ("region 2 has code of 1 to 3 bytes", true, |s| s.meets(2, tiny)),
    ("region 1 ends where code begins", false, |s| s.apart(1, ends_before)),
    ("region 2 ends where code begins", false, |s| s.apart(2, ends_before)),
    ("region 1 begins where code ends", false, |s| s.apart(1, begins_after)),
    ("region 2 begins where code ends", false, |s| s.apart(2, begins_after)),
    ("a large region 1 ends where code begins", false, |s| s.large() && s.apart(1, ends_before)),
    ("a large region 1 begins where code ends", false, |s| s.large() && s.apart(1, begins_after)),
    ("region 1 beside code of 1 to 3 bytes", false, |s| s.apart(1, |own, code| tiny(own, code) && (ends_before(own, code) || begins_after(own, code)))),
    ("region 2 beside code of 1 to 3 bytes", false, |s| s.apart(2, |own, code| tiny(own, code) && (ends_before(own, code) || begins_after(own, code)))),
    ("a small region 1 in code breaks its rule", false, |s| !s.large() && s.spared(1, true)),
    ("a large region 1 in code breaks its rule", false, |s| s.large() && s.spared(1, true)),
    ("region 2 in code breaks its rule", false, |s| s.spared(2, true)),
    ("region 3 breaks its rule, a writable one has its base", false, |s| s.spared(3, true)),
    ("a small region 1 in code lacks write", false, |s| !s.large() && s.spared(1, false)),
    ("a large region 1 in code lacks write", false, |s| s.large() && s.spared(1, false)),
    ("region 2 in code lacks write", false, |s| s.spared(2, false)),
    ("region 3 lacks execute, a writable one has its base", false, |s| s.spared(3, false)),
];

/// What regions are hidden: the name, whether a byte is writable and executable
/// then, and what the aim leaves out.
const HIDES: [(&str, bool, Lack); 4] = [
    ("a lower region hides all of region 2", false, Lack::Hidden),
    ("a lower region ends inside region 2", true, Lack::HalfHidden),
    ("a lower region hides all of code", false, Lack::CodeHidden),
    ("a lower region ends inside code", true, Lack::HalfCodeHidden),
];

/// Machines by class, each put in every way.
pub type Met = BTreeMap<&'static str, u64>;

/// Machines by the writable region and code: refused, not refused.
pub type Numbers = BTreeMap<(usize, usize), [u64; 2]>;

/// Is the answer as it has to be, by whether a byte is writable and executable?
fn as_told(way: usize, refused: bool, answer: &Answer, before: &Machine) -> bool {
    let told = WAYS[way].1;
    let left = [answer.count, answer.address] == [0, 0] && answer.machine == *before;
    match (refused, told) {
        (true, 4 | 22) => answer.stop == told && left,
        (_, 2 | 3 | 14) => answer.stop == told && left,
        _ => answer.stop != 4 && answer.stop != 22,
    }
}

/// Every class, and whether it is refused.
pub fn class_names() -> Vec<(&'static str, bool)> {
    CLASSES.iter().map(|row| (row.0, row.1)).chain(HIDES.iter().map(|row| (row.0, row.1))).collect()
}

/// The classes of an aim's regions, and whether they are refused.
pub fn classes(aim: Aim, seen: &Seen) -> Vec<(&'static str, bool)> {
    if let Some((class, refused, _)) = HIDES.into_iter().find(|row| row.2 == aim.lack) {
        return vec![(class, refused)];
    }
    CLASSES.into_iter().filter(|(_, _, test)| test(seen)).map(|(class, refused, _)| (class, refused)).collect()
}

/// Regions of each aim in each way, both engines.
pub fn compare(left: &dyn Engine, right: &dyn Engine, supply: &mut Supply, counts: &mut Counts) {
    for aim in aims().into_iter().chain(hiding_aims()) {
        let (machine, memory, numbers) = supply.aimed_regions_world(aim);
        let classes = classes(aim, &Seen::of(&machine, numbers, memory.len()));
        classes.iter().for_each(|(class, _)| *counts.code_classes.entry(class).or_default() += 1);
        if let Some((_, refused)) = classes.first() {
            let writable = if aim.writable == Writable::Data { numbers[1] } else { numbers[0] };
            counts.code_numbers.entry((writable, numbers[2])).or_default()[!*refused as usize] += 1;
        }
        for way in 0..WAYS.len() {
            let call = put(supply, way, &machine, &memory);
            let answer = call.answer(left).expect("the measure answers");
            *counts.code_stops.entry(answer.stop).or_default() += 1;
            for (class, _) in classes.iter().filter(|class| !as_told(way, class.1, &answer, &call.machine)) {
                counts.difference(format!("{class}: {} is answered by {}", call.written(), answer.written("")));
            }
            let Some(other) = call.answer(right) else { continue };
            counts.compared += 1;
            if answer != other {
                let told = [answer.written(&left.title()), other.written(&right.title())];
                counts.difference(format!("{}{}{}", call.written(), told[0], told[1]));
            }
        }
    }
}

/// The classes and the regions of which there was no machine.
pub fn unmet(met: &Met, numbers: &Numbers) -> Vec<String> {
    let names = CLASSES.iter().map(|row| row.0).chain(HIDES.iter().map(|row| row.0));
    let mut lacking: Vec<String> =
        names.filter(|class| !met.contains_key(class)).map(|class| format!("no regions of the class: {class}")).collect();
    for data in EXPLICIT.into_iter().chain(IMPLICIT_DATA) {
        for code in IMPLICIT_CODE {
            if numbers.get(&(data, code)).map_or(true, |met| met.contains(&0)) {
                lacking.push(format!("regions {data} and {code} were not refused, or not otherwise"));
            }
        }
    }
    lacking
}

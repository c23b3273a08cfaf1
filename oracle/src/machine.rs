//! The machine's record and what well formed means.

use crate::numbers::bit;

pub const REGIONS: usize = 10;

#[repr(C)]
#[derive(Clone, Copy, Debug, PartialEq, Eq, Default)]
pub struct Region {
    pub base: u64,
    /// Bound of an explicit region, mask of an implicit one.
    pub bound: u64,
    pub permission: u64,
}

#[repr(C)]
#[derive(Clone, Copy, Debug, PartialEq, Eq, Default)]
pub struct Fault {
    pub occurred: u64,
    pub region: u64,
    /// 0 none, 1 load, 2 store, 3 fetch
    pub op: u64,
    pub address: u64,
}

/// Every field is a u64, in this order, so that the record can be handed over
/// a C interface as it stands.
#[repr(C)]
#[derive(Clone, Copy, Debug, PartialEq, Eq, Default)]
pub struct Machine {
    pub x: [u64; 32],
    pub pc: u64,
    pub mode: u64,
    pub reason: u64,
    pub exit_pc: u64,
    pub options: u64,
    pub handler: u64,
    pub selector: u64,
    /// Region n is `regions[n - 1]`.
    pub regions: [Region; REGIONS],
    pub fault: Fault,
}

/// Ten regions of which the first three are these and the others zero.
pub fn with_others_zero(first: [Region; 3]) -> [Region; REGIONS] {
    std::array::from_fn(|n| first.get(n).copied().unwrap_or_default())
}

pub const READ: u32 = 0;
pub const WRITE: u32 = 1;
pub const EXECUTE: u32 = 2;
pub const LARGE: u32 = 3;

pub const OPTION_LOCK: u32 = 0;
pub const OPTION_REDIRECT_CALLS: u32 = 1;
pub const OPTION_REDIRECT_EXITS: u32 = 2;

#[derive(Clone, Copy, Debug, PartialEq, Eq)]
pub enum RegionKind {
    Explicit,
    ImplicitData,
    ImplicitCode,
}

pub const KINDS: [RegionKind; 3] = [RegionKind::Explicit, RegionKind::ImplicitData, RegionKind::ImplicitCode];

/// "Explicit are 1, 4, 5, 6; implicit data 2, 7, 8, 9; code 3, 10" (document
/// 02, Job 7), each list rising.
pub const EXPLICIT: [usize; 4] = [1, 4, 5, 6];
pub const IMPLICIT_DATA: [usize; 4] = [2, 7, 8, 9];
pub const IMPLICIT_CODE: [usize; 2] = [3, 10];

/// The numbers of the regions of a kind, rising.
pub fn numbers_of_kind(kind: RegionKind) -> &'static [usize] {
    match kind {
        RegionKind::Explicit => &EXPLICIT,
        RegionKind::ImplicitData => &IMPLICIT_DATA,
        RegionKind::ImplicitCode => &IMPLICIT_CODE,
    }
}

/// What kind region `number` (from 1) is.
pub fn region_kind(number: usize) -> RegionKind {
    KINDS.into_iter().find(|kind| numbers_of_kind(*kind).contains(&number)).expect("a region's number")
}

/// The permission bits that a region of a kind has.
pub fn kind_has_bit(kind: RegionKind, place: u32) -> bool {
    match kind {
        RegionKind::Explicit => place == READ || place == WRITE || place == LARGE,
        RegionKind::ImplicitData => place == READ || place == WRITE,
        RegionKind::ImplicitCode => place == EXECUTE,
    }
}

/// Has the number only permission bits that region `number` has?
pub fn permission_fits(number: usize, permission: u64) -> bool {
    (0..64).all(|place| !bit(permission, place) || kind_has_bit(region_kind(number), place))
}

pub fn well_formed(machine: &Machine) -> bool {
    let handler_clear = [0, 1, 62, 63].iter().all(|place| !bit(machine.handler, *place));
    let permissions = (1..=REGIONS).all(|n| permission_fits(n, machine.regions[n - 1].permission));
    machine.x[0] == 0
        && machine.mode <= 1
        && machine.reason <= 2
        && machine.options <= 15
        && handler_clear
        && machine.selector <= REGIONS as u64
        && permissions
        && machine.fault.occurred <= 1
        && machine.fault.region <= REGIONS as u64
        && machine.fault.op <= 3
}

impl Machine {
    pub fn locked(&self) -> bool {
        bit(self.options, OPTION_LOCK)
    }

    pub fn get(&self, register: u64) -> u64 {
        self.x[register as usize]
    }

    /// Writes to x0 are lost.
    pub fn set(&mut self, register: u64, value: u64) {
        if register != 0 {
            self.x[register as usize] = value;
        }
    }
}

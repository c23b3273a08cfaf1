//! Regions: their rules, and the judgement of a single byte.

use crate::machine::{numbers_of_kind, region_kind, Machine, Region, RegionKind, EXECUTE, LARGE, READ, WRITE};
use crate::numbers::{bit, power, wrap};

/// The number of trailing zero bits, counted one by one; 64 for zero.
pub fn trailing_zeros(mask: u64) -> u32 {
    let mut k = 0;
    while k < 64 && !bit(mask, k) {
        k += 1;
    }
    k
}

/// "the count k of the mask's trailing zero bits is 0 to 48, the bits above
/// them are all ones, base is a multiple of 2^k, and base + 2^k is at most 2^48"
pub fn implicit_rule(region: &Region) -> bool {
    let k = trailing_zeros(region.bound);
    if k > 48 {
        return false;
    }
    let base = region.base as u128;
    let all_ones_above = (k..64).all(|place| bit(region.bound, place));
    all_ones_above && base % power(k) == 0 && base + power(k) <= power(48)
}

/// "bound is 1 to 2^32, first and last byte share the same multiple of 2^32,
/// base + bound is at most 2^48"
pub fn small_rule(region: &Region) -> bool {
    let base = region.base as u128;
    let bound = region.bound as u128;
    if bound < 1 || bound > power(32) {
        return false;
    }
    base / power(32) == (base + bound - 1) / power(32) && base + bound <= power(48)
}

/// "base and bound are multiples of 65,536, bound is not 0, base + bound is at
/// most 2^48"
pub fn large_rule(region: &Region) -> bool {
    let base = region.base as u128;
    let bound = region.bound as u128;
    base % 65536 == 0 && bound % 65536 == 0 && bound != 0 && base + bound <= power(48)
}

/// Does region `number` keep the rule of its kind?
pub fn keeps_rule(number: usize, region: &Region) -> bool {
    rule_of_kind(region_kind(number), region)
}

pub fn rule_of_kind(kind: RegionKind, region: &Region) -> bool {
    match kind {
        RegionKind::Explicit => {
            if bit(region.permission, LARGE) {
                large_rule(region)
            } else {
                small_rule(region)
            }
        }
        RegionKind::ImplicitData | RegionKind::ImplicitCode => implicit_rule(region),
    }
}

/// Does an implicit region match the byte at this address?
pub fn matches(region: &Region, address: u64) -> bool {
    implicit_rule(region) && address & region.bound == region.base
}

#[derive(Clone, Copy, Debug, PartialEq, Eq)]
pub enum Op {
    Load,
    Store,
    Fetch,
}

impl Op {
    /// The number in the fault record.
    pub fn number(self) -> u64 {
        match self {
            Op::Load => 1,
            Op::Store => 2,
            Op::Fetch => 3,
        }
    }

    /// The permission bit wanted.
    pub fn wanted(self) -> u32 {
        match self {
            Op::Load => READ,
            Op::Store => WRITE,
            Op::Fetch => EXECUTE,
        }
    }
}

/// An access: where it starts and how many bytes it has. An explicit one
/// goes through a region by offset, an implicit one by address.
#[derive(Clone, Copy, Debug, PartialEq, Eq)]
pub enum Place {
    Implicit { address: u64 },
    Explicit { region: usize, offset: i128 },
}

#[derive(Clone, Copy, Debug, PartialEq, Eq)]
pub struct Access {
    pub op: Op,
    pub place: Place,
    pub size: u64,
}

/// The address of byte i of an access.
pub fn address(machine: &Machine, access: &Access, i: u64) -> u64 {
    match access.place {
        Place::Implicit { address } => wrap(address as i128 + i as i128),
        Place::Explicit { region, offset } => {
            wrap(machine.regions[region - 1].base as i128 + offset + i as i128)
        }
    }
}

/// HFI's judgement of byte i: nothing if it passes, else the fault region.
pub fn refusal(machine: &Machine, access: &Access, i: u64) -> Option<u64> {
    match access.place {
        Place::Explicit { region: number, offset } => {
            let region = &machine.regions[number - 1];
            let reached = offset + i as i128;
            let passes = keeps_rule(number, region)
                && bit(region.permission, access.op.wanted())
                && reached >= 0
                && reached < region.bound as i128;
            if passes {
                None
            } else {
                Some(number as u64)
            }
        }
        Place::Implicit { .. } => {
            let kind = match access.op {
                Op::Fetch => RegionKind::ImplicitCode,
                Op::Load | Op::Store => RegionKind::ImplicitData,
            };
            let byte = address(machine, access, i);
            // "the lowest-numbered matching region of the kind decides, even if a later one would grant more"
            for number in numbers_of_kind(kind) {
                let region = &machine.regions[number - 1];
                if matches(region, byte) {
                    return if bit(region.permission, access.op.wanted()) { None } else { Some(*number as u64) };
                }
            }
            Some(0)
        }
    }
}

/// The first byte that HFI refuses, counted from the access's start: its
/// fault region and its address. Outside HFI mode regions are not consulted.
pub fn first_refused(machine: &Machine, access: &Access) -> Option<(u64, u64)> {
    if machine.mode == 0 {
        return None;
    }
    for i in 0..access.size {
        if let Some(region) = refusal(machine, access, i) {
            return Some((region, address(machine, access, i)));
        }
    }
    None
}

/// The address of the first byte that is not in memory.
pub fn first_absent(machine: &Machine, access: &Access, length: usize) -> Option<u64> {
    for i in 0..access.size {
        let byte = address(machine, access, i);
        if byte >= length as u64 {
            return Some(byte);
        }
    }
    None
}

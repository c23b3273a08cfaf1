//! Writable code (document 02, Job 5): "no byte may be both writable and
//! executable". The writable and the executable bytes are lists of intervals,
//! cut from each other; no single byte is asked here, as `reach` does.

use crate::machine::{numbers_of_kind, Machine, Region, RegionKind, EXECUTE, WRITE};
use crate::numbers::{bit, power};
use crate::region::{rule_of_kind, trailing_zeros};

/// The bytes from `start` on and before `end`; it has at least one.
#[derive(Clone, Copy, Debug, PartialEq, Eq)]
pub struct Interval {
    pub start: u128,
    pub end: u128,
}

impl Interval {
    fn new(start: u128, end: u128) -> Option<Interval> {
        (start < end).then_some(Interval { start, end })
    }

    /// The bytes that both have.
    pub fn meet(self, other: Interval) -> Option<Interval> {
        Interval::new(self.start.max(other.start), self.end.min(other.end))
    }

    /// What is left once another is cut out: a part before it, a part after it.
    fn cut(self, out: Interval) -> Vec<Interval> {
        let before = Interval::new(self.start, self.end.min(out.start));
        let after = Interval::new(self.start.max(out.end), self.end);
        before.into_iter().chain(after).collect()
    }

    fn cut_all(self, outs: &[Interval]) -> Vec<Interval> {
        outs.iter().fold(vec![self], |left, out| left.into_iter().flat_map(|part| part.cut(*out)).collect())
    }
}

/// All bytes of a region of a kind. One that breaks its rule has none.
pub fn extent(kind: RegionKind, region: &Region) -> Option<Interval> {
    if !rule_of_kind(kind, region) {
        return None;
    }
    let size = match kind {
        RegionKind::Explicit => region.bound as u128,
        RegionKind::ImplicitData | RegionKind::ImplicitCode => power(trailing_zeros(region.bound)),
    };
    Interval::new(region.base as u128, region.base as u128 + size)
}

/// The bytes that implicit regions, given in the order of their numbers, grant.
/// The first that matches decides, so what an earlier one has is cut out of a
/// later one, whatever the earlier one grants.
pub fn granted_implicit(kind: RegionKind, regions: &[Region], wanted: u32) -> Vec<Interval> {
    let (mut granted, mut earlier) = (Vec::new(), Vec::new());
    for region in regions {
        let Some(own) = extent(kind, region) else { continue };
        if bit(region.permission, wanted) {
            granted.extend(own.cut_all(&earlier));
        }
        earlier.push(own);
    }
    granted
}

/// The bytes that explicit regions grant, each all of its own; what an earlier
/// one has stands once.
pub fn granted_explicit(regions: &[Region], wanted: u32) -> Vec<Interval> {
    let mut granted: Vec<Interval> = Vec::new();
    for region in regions.iter().filter(|region| bit(region.permission, wanted)) {
        let Some(own) = extent(RegionKind::Explicit, region) else { continue };
        let more = own.cut_all(&granted);
        granted.extend(more);
    }
    granted
}

/// The intervals that two lists share.
pub fn shared(some: &[Interval], others: &[Interval]) -> Vec<Interval> {
    some.iter().flat_map(|one| others.iter().filter_map(|other| one.meet(*other))).collect()
}

/// The regions of a kind, in the order of their numbers.
fn of_kind(machine: &Machine, kind: RegionKind) -> Vec<Region> {
    numbers_of_kind(kind).iter().map(|number| machine.regions[number - 1]).collect()
}

pub fn writable_explicit(machine: &Machine) -> Vec<Interval> {
    granted_explicit(&of_kind(machine, RegionKind::Explicit), WRITE)
}

pub fn writable_implicit(machine: &Machine) -> Vec<Interval> {
    granted_implicit(RegionKind::ImplicitData, &of_kind(machine, RegionKind::ImplicitData), WRITE)
}

pub fn executable_intervals(machine: &Machine) -> Vec<Interval> {
    granted_implicit(RegionKind::ImplicitCode, &of_kind(machine, RegionKind::ImplicitCode), EXECUTE)
}

/// Is some byte both writable and executable? Every region that keeps its rule
/// ends at 2^48 or below, and memory's length does not count (reading A53).
pub fn code_is_writable(machine: &Machine) -> bool {
    let code = executable_intervals(machine);
    [writable_explicit(machine), writable_implicit(machine)].iter().any(|data| !shared(data, &code).is_empty())
}

/// "With the lock bit set and HFI mode on": what 4 refuses.
pub fn locked_code_is_writable(machine: &Machine) -> bool {
    machine.mode == 1 && machine.locked() && code_is_writable(machine)
}

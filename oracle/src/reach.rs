//! Readable, writable and executable bytes, judged by the regions of a
//! machine in HFI mode, and the isolation of demand 3 as a test.

use crate::machine::{Machine, EXPLICIT};
use crate::region::{refusal, Access, Op, Place};

/// Does an ordinary load or store, or a fetch, reach the byte? Register values
/// and pc are free, so an access of one byte reaches any address; a fetch at
/// the multiple of 2 below reaches it too (document 02, Job 8).
fn implicit_reach(machine: &Machine, op: Op, address: u64) -> bool {
    let access = Access { op, place: Place::Implicit { address }, size: 1 };
    refusal(machine, &access, 0).is_none()
}

/// Does an h-load or h-store reach the byte? rs1 is free and counts (document
/// 02, Job 1), so an access of one byte has any offset from 0 on, below the bound: all
/// bytes of a region that keeps its rule and has the permission. A word can
/// choose each of the explicit regions.
fn explicit_reach(machine: &Machine, op: Op, address: u64) -> bool {
    EXPLICIT.into_iter().any(|region| {
        let offset = address as i128 - machine.regions[region - 1].base as i128;
        let access = Access { op, place: Place::Explicit { region, offset }, size: 1 };
        refusal(machine, &access, 0).is_none()
    })
}

pub fn readable(machine: &Machine, address: u64) -> bool {
    implicit_reach(machine, Op::Load, address) || explicit_reach(machine, Op::Load, address)
}

pub fn writable(machine: &Machine, address: u64) -> bool {
    implicit_reach(machine, Op::Store, address) || explicit_reach(machine, Op::Store, address)
}

pub fn executable(machine: &Machine, address: u64) -> bool {
    implicit_reach(machine, Op::Fetch, address)
}

//! The offset of an h-prefixed word (document 02, Job 1): "the unsigned value
//! of rs1 plus the signed immediate, as a whole number that does not wrap".

mod common;
use common::*;
use oracle::instruction::*;
use oracle::region::Op;
use oracle::step::{load_size, store_size};
use oracle::*;

const VALUE: u64 = 0x8877_6655_4433_2211;

/// What becomes of an access, with the address that counts.
#[derive(Clone, Copy, Debug)]
enum Then {
    /// It starts there.
    At(u64),
    /// 16, the first refused byte there.
    Refused(u64),
    /// 17, the first absent byte there.
    Absent(u64),
}
use Then::*;

/// A byte of memory, by its address.
fn content(address: u64) -> u8 {
    (address * 167 / 4 + 129) as u8
}

fn little_endian(start: u64, size: u64) -> u64 {
    (0..size).rev().fold(0, |value, i| value << 8 | content(start + i) as u64)
}

/// What the load of that kind gives of the bytes from an address on.
fn value_of(kind: LoadKind, start: u64) -> u64 {
    match kind {
        LoadKind::Byte => little_endian(start, 1) as i8 as u64,
        LoadKind::Half => little_endian(start, 2) as i16 as u64,
        LoadKind::Word => little_endian(start, 4) as i32 as u64,
        LoadKind::Double => little_endian(start, 8),
        LoadKind::ByteUnsigned => little_endian(start, 1),
        LoadKind::HalfUnsigned => little_endian(start, 2),
        LoadKind::WordUnsigned => little_endian(start, 4),
    }
}

struct World {
    region: Region,
    length: usize,
}

impl World {
    fn machine(&self, rs1: u64) -> Machine {
        let mut machine = inside();
        machine.regions[0] = self.region;
        machine.x[7] = rs1;
        machine.x[9] = VALUE;
        machine
    }

    fn memory(&self, word: u32) -> Vec<u8> {
        let mut bytes: Vec<u8> = (0..self.length as u64).map(content).collect();
        bytes[0..4].copy_from_slice(&word.to_le_bytes());
        bytes
    }

    fn stopped(&self, rs1: u64, word: u32, op: Op, then: Then) {
        match then {
            At(_) => unreachable!(),
            Refused(address) => faults(self.machine(rs1), &self.memory(word), 16, 1, op.number(), address),
            Absent(address) => stops(self.machine(rs1), &self.memory(word), 17, address),
        }
    }

    /// An h-load of the kind: into another register, into x0 and into rs1 itself.
    fn load(&self, kind: LoadKind, rs1: u64, immediate: i64, then: Then) {
        for rd in [6, 0, 7] {
            let word = hload(kind, rd, 7, immediate);
            let At(start) = then else {
                self.stopped(rs1, word, Op::Load, then);
                continue;
            };
            let mut expected = Machine { pc: 4, ..self.machine(rs1) };
            if rd != 0 {
                expected.x[rd as usize] = value_of(kind, start);
            }
            let (after, bytes) = completes(self.machine(rs1), &self.memory(word));
            assert_eq!(after, expected, "{kind:?} {rs1:x} {immediate}");
            assert_eq!(bytes, self.memory(word));
        }
    }

    /// An h-store of the kind: of another register and of rs1 itself.
    fn store(&self, kind: StoreKind, rs1: u64, immediate: i64, then: Then) {
        for (rs2, value) in [(9, VALUE), (7, rs1)] {
            let word = hstore(kind, rs2, 7, immediate);
            let At(start) = then else {
                self.stopped(rs1, word, Op::Store, then);
                continue;
            };
            let (size, start) = (store_size(kind) as usize, start as usize);
            let mut expected = self.memory(word);
            expected[start..start + size].copy_from_slice(&value.to_le_bytes()[..size]);
            let (after, bytes) = completes(self.machine(rs1), &self.memory(word));
            assert_eq!(after, Machine { pc: 4, ..self.machine(rs1) });
            assert_eq!(bytes, expected, "{kind:?} {rs1:x} {immediate}");
        }
    }

    /// Every h-load and h-store; what becomes of it goes by its size.
    fn all(&self, rs1: u64, immediate: i64, then: impl Fn(u64) -> Then) {
        for (kind, _) in LOAD_TABLE {
            self.load(kind, rs1, immediate, then(load_size(kind)));
        }
        for (kind, _) in STORE_TABLE {
            self.store(kind, rs1, immediate, then(store_size(kind)));
        }
    }
}

const BASE: u64 = 0x2000;
const BOUND: u64 = 0x1800;

/// 6,144 bytes from 2000 on, all in memory.
fn six_kib() -> World {
    World { region: Region { base: BASE, bound: BOUND, permission: 3 }, length: 0x4000 }
}

#[test]
fn rs1_adds() {
    for (rs1, immediate) in [(0, 0), (0, 2047), (1, 0), (1, 2047), (2047, 0), (2048, 0), (2054, 0), (2055, 0), (4096, 0), (4096, 1000), (6000, 100)] {
        six_kib().all(rs1, immediate, |_| At(BASE + rs1 + immediate as u64));
    }
}

#[test]
fn the_immediate_is_signed() {
    for (rs1, immediate, offset) in [(5, -5, 0), (2048, -2048, 0), (2049, -2048, 1), (1, -1, 0), (4000, -1, 3999), (6136, -2048, 4088), (7000, -1000, 6000)] {
        six_kib().all(rs1, immediate, |_| At(BASE + offset));
    }
}

/// The bound itself and its neighbours, by rs1 alone and with an immediate.
#[test]
fn at_the_bound() {
    for immediate in [0, 9, -1, -2048, 2047] {
        let rs1 = |offset: u64| offset.wrapping_add_signed(-immediate);
        for (kind, _) in LOAD_TABLE {
            let last = BOUND - load_size(kind);
            six_kib().load(kind, rs1(last), immediate, At(BASE + last));
            six_kib().load(kind, rs1(last + 1), immediate, Refused(BASE + BOUND));
        }
        for (kind, _) in STORE_TABLE {
            let last = BOUND - store_size(kind);
            six_kib().store(kind, rs1(last), immediate, At(BASE + last));
            six_kib().store(kind, rs1(last + 1), immediate, Refused(BASE + BOUND));
        }
        six_kib().all(rs1(BOUND - 1), immediate, |size| if size == 1 { At(BASE + BOUND - 1) } else { Refused(BASE + BOUND) });
        six_kib().all(rs1(BOUND), immediate, |_| Refused(BASE + BOUND));
        six_kib().all(rs1(BOUND + 1), immediate, |_| Refused(BASE + BOUND + 1));
    }
}

/// "at least 0": the first byte is refused, though later ones are inside.
#[test]
fn below_the_region() {
    for back in 1..=8 {
        for rs1 in [0, 1, 3, 100, 2040] {
            six_kib().all(rs1, -(rs1 as i64) - back, |_| Refused(BASE - back as u64));
        }
    }
    six_kib().all(3, -5, |_| Refused(BASE - 2));
    // with base 0 the address wraps
    let low = World { region: Region { base: 0, bound: 64, permission: 3 }, length: 0x4000 };
    low.all(3, -5, |_| Refused(ALL - 1));
}

/// "the unsigned value of rs1": large values are far above, never below.
#[test]
fn rs1_is_unsigned_and_whole() {
    for rs1 in [1 << 32, (1 << 32) + 8, 1 << 48, (1 << 48) + 8, (1 << 62) - 1, 1 << 62, (1 << 62) + 8, (1 << 63) - 1, 1 << 63, (1 << 63) + 8, ALL] {
        for immediate in [0, -1, 1, -2048] {
            let address = BASE.wrapping_add(rs1).wrapping_add_signed(immediate);
            six_kib().all(rs1, immediate, |_| Refused(address));
        }
    }
}

/// "a whole number that does not wrap": sums of 2^64 and more are above every
/// bound, while the address is taken modulo 2^64 (READINGS, A50).
#[test]
fn the_sum_does_not_wrap() {
    six_kib().all(ALL, 1, |_| Refused(BASE));
    six_kib().all(ALL, 2047, |_| Refused(BASE + 2046));
    six_kib().all(ALL - 7, 8, |_| Refused(BASE));
    six_kib().all(ALL - 7, 7, |_| Refused(BASE - 1));
    six_kib().all(ALL - 1000, 1500, |_| Refused(BASE + 499));
    six_kib().all(ALL - 2046, 2047, |_| Refused(BASE));
    // a doubleword from 2^64 - 4 on would have its last bytes at 0 to 3
    six_kib().all(ALL - 3, 0, |_| Refused(BASE - 4));
    // nor in a region of 2^48 bytes at 0
    whole().all(ALL, 1, |_| Refused(0));
    whole().all(ALL, 0, |_| Refused(ALL));
}

/// The large region of all 2^48 bytes.
fn whole() -> World {
    World { region: Region { base: 0, bound: 1 << 48, permission: 0xb }, length: 0x4000 }
}

#[test]
fn the_largest_region() {
    let top = 1u64 << 48;
    whole().all(0x3ff0, 8, |_| At(0x3ff8));
    whole().all(0x4000, -1, |size| if size == 1 { At(0x3fff) } else { Absent(0x4000) });
    whole().all(0x4000, 0, |_| Absent(0x4000));
    whole().all(top - 1, 0, |size| if size == 1 { Absent(top - 1) } else { Refused(top) });
    whole().all(top - 8, 0, |_| Absent(top - 8));
    whole().all(top, 0, |_| Refused(top));
    whole().all(top, -8, |_| Absent(top - 8));
    whole().all(top, -1, |size| if size == 1 { Absent(top - 1) } else { Refused(top) });
    whole().all(top - 2000, 2000, |_| Refused(top));
}

/// A small region of 2^32 bytes, one byte of it in memory.
#[test]
fn a_region_mostly_absent() {
    let wide = World { region: Region { base: 0, bound: 1 << 32, permission: 3 }, length: 0x100 };
    wide.all(0x100, -1, |size| if size == 1 { At(0xff) } else { Absent(0x100) });
    wide.all((1 << 32) - 1, 0, |size| if size == 1 { Absent((1 << 32) - 1) } else { Refused(1 << 32) });
    wide.all(1 << 32, 0, |_| Refused(1 << 32));
}

/// "With rule and permission as before".
#[test]
fn rule_and_permission_come_first() {
    let mut world = six_kib();
    world.region.permission = 2;
    for (kind, _) in LOAD_TABLE {
        world.load(kind, 3000, 5, Refused(BASE + 3005));
    }
    for (kind, _) in STORE_TABLE {
        world.store(kind, 3000, 5, At(BASE + 3005));
    }
    world.region.permission = 1;
    for (kind, _) in LOAD_TABLE {
        world.load(kind, 3000, 5, At(BASE + 3005));
    }
    for (kind, _) in STORE_TABLE {
        world.store(kind, 3000, 5, Refused(BASE + 3005));
    }
    // broken: over a multiple of 2^32, past 2^48, near 2^64
    for base in [(1 << 32) - 16, 1 << 48, ALL - 15, ALL] {
        let broken = World { region: Region { base, bound: 64, permission: 3 }, length: 0x4000 };
        broken.all(0, 0, |_| Refused(base));
        broken.all(20, -3, |_| Refused(base.wrapping_add(17)));
        broken.all(ALL, 1, |_| Refused(base));
    }
}

/// "Words with rs1 = x0 act as before": no other register counts.
#[test]
fn x0_adds_nothing() {
    for (immediate, then) in [(0, At(BASE)), (2047, At(BASE + 2047)), (-1, Refused(BASE - 1)), (-2048, Refused(BASE - 2048))] {
        let mut machine = six_kib().machine(0);
        (1..32).for_each(|n| machine.x[n] = ALL);
        let word = hload(LoadKind::Double, 6, 0, immediate);
        match then {
            At(start) => assert_eq!(completes(machine, &six_kib().memory(word)).0.x[6], value_of(LoadKind::Double, start)),
            Refused(address) => faults(machine, &six_kib().memory(word), 16, 1, 1, address),
            Absent(_) => unreachable!(),
        }
    }
}

//! Directed calls of document 02, Job 7: ten regions.

use super::*;

/// "Explicit are 1, 4, 5, 6": by the two top bits, rs1's counting 2.
const CHOICES: [usize; 4] = [1, 4, 5, 6];
const DATA: [usize; 4] = [2, 7, 8, 9];
const CODE: [usize; 2] = [3, 10];

/// Two regions of ordinary data, the lower number first.
const PAIRS_OF_DATA: [(usize, usize); 6] = [(2, 7), (2, 8), (2, 9), (7, 8), (7, 9), (8, 9)];

/// "bits 0, 1, 3" of an explicit region, 0 and 1 of data, 2 of code.
pub(super) fn largest_permission(number: usize) -> u64 {
    match number {
        1 | 4 | 5 | 6 => 0xb,
        2 | 7 | 8 | 9 => 3,
        _ => 4,
    }
}

/// The regions of `ten`: where each begins, its bytes and its permission.
const PLACES: [(u64, u64, u64); 10] = [
    (0x200, 0x40, 3),
    (0x400, 0x100, 3),
    (0, 0x100, 4),
    (0x240, 0x20, 3),
    (0x280, 0x40, 3),
    (0x300, 0x80, 3),
    (0x500, 0x100, 3),
    (0x600, 0x80, 1),
    (0x680, 0x80, 2),
    (0x100, 0x100, 4),
];

/// A region of this number with so many bytes; an implicit one has a mask.
fn sized(number: usize, base: u64, size: u64, permission: u64) -> Region {
    let bound = if CHOICES.contains(&number) { size } else { size.wrapping_neg() };
    Region { base, bound, permission }
}

/// `inside` with ten regions: h-words have 200 to 25f, 280 to 2bf and 300 to 37f, ordinary data 400 to 5ff, 600 to 67f to
/// read and 680 to 6ff to write, fetches 0 to 1ff.
fn ten(word: u32) -> World {
    inside(word).with(|m| {
        for (n, (base, size, permission)) in PLACES.into_iter().enumerate() {
            m.regions[n] = sized(n + 1, base, size, permission);
        }
    })
}

/// In HFI mode at 40, with these regions and no others; the fetch passes by region 3 if it is not among them.
fn only(word: u32, regions: &[(usize, Region)]) -> World {
    inside(word).with(|m| {
        (m.regions[0], m.regions[1]) = Default::default();
        regions.iter().for_each(|(number, region)| m.regions[number - 1] = *region);
    })
}

/// The field of a register, with a top bit.
fn field(register: u32, top: usize) -> u32 {
    register + 16 * top as u32
}

/// An h-load or h-store of x7 by x9 that chooses the n-th explicit region.
fn chosen_load(n: usize, funct3: u32, offset: i32) -> u32 {
    hload_by(funct3, field(7, n % 2), field(9, n / 2), offset)
}

fn chosen_store(n: usize, funct3: u32, offset: i32) -> u32 {
    hstore_by(funct3, field(7, n % 2), field(9, n / 2), offset)
}

fn next(m: &mut Machine) {
    m.pc = 0x44;
}

impl List {
    pub(super) fn ten_regions(&mut self) {
        self.choices();
        self.chosen_registers();
        self.chosen_both();
        self.words_of_before();
        self.chosen_refused();
        self.chosen_alone();
        self.settings();
        self.settings_refused();
        self.resets();
        self.permissions_of_ten();
        self.hidden_data();
        self.hidden_part();
        self.across_data();
        self.across_data_refused();
        self.fetches();
        self.fetches_across();
        self.writable_in_each();
        self.writable_beside();
        self.hidden_and_locked();
        self.hidden_code();
        self.regions_in_runs();
    }

    /// "rs1's counts 2, that of rd or rs2 counts 1, and 0 to 3 mean 1, 4, 5, 6": each h-word through each.
    fn choices(&mut self) {
        for (n, number) in CHOICES.into_iter().enumerate() {
            // Each region has another doubleword at 8.
            let world = |word: u32| {
                let mut world = ten(word).with(|m| (m.x[7], m.x[9]) = (0x1122_3344_5566_7788, 3));
                for other in CHOICES {
                    let at = PLACES[other - 1].0 as usize + 8;
                    world = world.put(at, 0xc433_a290 + other as u32).put(at + 4, 0x8877_6655);
                }
                world
            };
            let low = number as u64;
            let loads = [
                ("hlb", 0xffff_ffff_ffff_ff90),
                ("hlh", 0xffff_ffff_ffff_a290),
                ("hlw", 0xffff_ffff_c433_a290),
                ("hld", 0x8877_6655_c433_a290),
                ("hlbu", 0x90),
                ("hlhu", 0xa290),
                ("hlwu", 0xc433_a290),
            ];
            for (funct3, (name, value)) in loads.into_iter().enumerate() {
                let got = |m: &mut Machine| (m.x[7], m.pc) = (value + low, 0x44);
                self.step(&format!("{name} through region {number}"), world(chosen_load(n, funct3 as u32, 5)), 0, got);
            }
            for (funct3, (name, size)) in [("hsb", 1), ("hsh", 2), ("hsw", 4), ("hsd", 8)].into_iter().enumerate() {
                let at = PLACES[number - 1].0 as usize + 8;
                let call = self.step(&format!("{name} through region {number}"), world(chosen_store(n, funct3 as u32, 5)), 0, next);
                call.stores(at, size, 0x1122_3344_5566_7788);
            }
        }
    }

    /// "The remaining four bits name x0 to x15": rs1 fields of 16 and above alone, then those of rd or rs2.
    fn chosen_registers(&mut self) {
        for n in 16..32u32 {
            let low = (n - 16) as usize;
            // One register holds 8, those above x15 what would be refused; x0 is 0.
            let offset = if low == 0 { 0 } else { 8 };
            let other = if low == 6 { 5 } else { 6 };
            let world = |word: u32| {
                let base = ten(word).put(0x290, 0x8765_4321).put(0x288, 0x7654_3210);
                base.with(|m| (1..32).for_each(|r| m.x[r] = if r == low { 8 } else { 0x1000 + r as u64 }))
            };
            let value = if low == 0 { 0x7654_3210 } else { 0x8765_4321 };
            if n % 2 == 0 {
                let got = move |m: &mut Machine| (m.x[other as usize], m.pc) = (value, 0x44);
                self.step(&format!("hlwu, field rs1 {n}, region 5"), world(hload_by(6, other, n, 8)), 0, got);
            } else {
                let call = self.step(&format!("hsh, field rs1 {n}, region 5"), world(hstore_by(1, other, n, 8)), 0, next);
                call.stores(0x288 + offset, 2, 0x1000 + other as u64);
            }
            let by_x0 = |word: u32| world(word).put(0x250, 0x9abc_def0);
            if n % 2 == 1 {
                let got = move |m: &mut Machine| (m.x[low], m.pc) = (0x9abc_def0, 0x44);
                self.step(&format!("hlwu, field rd {n}, region 4"), by_x0(hload_by(6, n, 0, 0x10)), 0, got);
            } else {
                let call = self.step(&format!("hsd, field rs2 {n}, region 4"), by_x0(hstore_by(3, n, 0, 0x10)), 0, next);
                call.stores(0x250, 8, if low == 0 { 0 } else { 8 });
            }
        }
        let zero = ten(hload_by(3, 16, 0, 0)).put(0x240, 1);
        self.step("hld, field rd 16 is x0", zero, 0, next);
    }

    /// Both fields of 16 and above, often one register.
    fn chosen_both(&mut self) {
        for n in 16..32u32 {
            let low = (n - 16) as usize;
            let world = |word: u32| {
                let base = ten(word).put(0x318, 0x8765_4321).put(0x310, 0x7654_3210);
                base.with(|m| (1..32).for_each(|r| m.x[r] = if r == low { 8 } else { 0x1000 + r as u64 }))
            };
            let (offset, value) = if low == 0 { (0, 0) } else { (8, 0x8765_4321) };
            if n % 2 == 0 {
                let got = move |m: &mut Machine| (m.x[low], m.pc) = (value, 0x44);
                self.step(&format!("hlwu, fields rd and rs1 {n}, region 6"), world(hload_by(6, n, n, 0x10)), 0, got);
            } else {
                let call = self.step(&format!("hsd, fields rs1 and rs2 {n}, region 6"), world(hstore_by(3, n, n, 0x10)), 0, next);
                call.stores(0x310 + offset, 8, offset as u64);
            }
        }
        let crossed = ten(hstore_by(0, 31, 16, 0x7f)).with(|m| (m.x[15], m.x[31]) = (0x5a, 0xa5));
        self.step("hsb, fields rs1 16 and rs2 31", crossed, 0, next).stores(0x37f, 1, 0x5a);
    }

    /// "H-words with a register field of x16 or above change meaning": words stored for Job 1, whose region was 1. Region 5
    /// is zero here, and x0 to x15 are what rs1 names.
    fn words_of_before(&mut self) {
        for n in 16..32u32 {
            let low = (n - 16) as usize;
            let world = |word: u32| {
                let base = inside(word).put(0x210, 0x8765_4321);
                base.with(|m| (1..32).for_each(|r| m.x[r] = if r as u32 == n { 8 } else { 0x1000 + r as u64 }))
            };
            let address = if low == 0 { 8 } else { 0x1008 + low as u64 };
            let (name, word, op) =
                if n % 2 == 1 { ("hlwu", hload_by(6, 6, n, 8), 1) } else { ("hsh", hstore_by(1, 6, n, 8), 2) };
            self.step(&format!("{name}, rs1 was x{n}, region 5 is zero"), world(word), 16, |m| m.fault = fault(5, op, address));
        }
    }

    /// "an explicit fault records the region chosen", past its end, before it, broken, zero, without the permission.
    fn chosen_refused(&mut self) {
        for (n, number) in CHOICES.into_iter().enumerate().skip(1) {
            let (base, size, _) = PLACES[number - 1];
            let end = base + size;
            let words = |offset: i32| [("hld", chosen_load(n, 3, offset), 1), ("hsh", chosen_store(n, 1, offset), 2)];
            let by = |word: u32, rs1: u64| ten(word).with(|m| m.x[9] = rs1);
            for (name, word, op) in words(-1) {
                self.step(&format!("{name}, region {number}, past its end"), by(word, size), 16, |m| m.fault = fault(number as u64, op, end));
                self.step(&format!("{name}, region {number}, before it"), by(word, 0), 16, |m| m.fault = fault(number as u64, op, base - 1));
            }
            for (turn, (name, word, op)) in words(0).into_iter().enumerate() {
                let all = [
                    ("is zero", Region::default()),
                    ("with bound 0", region(base, 0, 3)),
                    ("large, with base 240", region(0x240, 0x10000, 0xb)),
                    ("at the last address", region(ALL, 0x40, 3)),
                    ("without the permission", region(base, size, 3 - op)),
                ];
                for (what, region) in all.into_iter().enumerate().filter(|(k, _)| k % 4 == 0 || k % 2 == turn).map(|(_, row)| row) {
                    let world = by(word, 4).with(|m| m.regions[number - 1] = region);
                    let address = region.base.wrapping_add(4);
                    self.step(&format!("{name}, region {number} {what}"), world, 16, |m| m.fault = fault(number as u64, op, address));
                }
            }
        }
        let short = ten(chosen_load(3, 3, 0x10)).length(0x313);
        self.add("step: hld through region 6, byte 313 absent", Request::Step, short, (17, 0, 0x313), unchanged);
        let short = ten(chosen_store(1, 3, 0x18)).length(0x25f);
        self.add("step: hsd through region 4, byte 25f absent", Request::Step, short, (17, 0, 0x25f), unchanged);
        self.step("h-load outside, region 6 chosen", outside(chosen_load(3, 3, 0)), 14, unchanged);
        self.step("h-store outside, region 5 chosen", outside(chosen_store(2, 3, 0)), 14, unchanged);
    }

    /// "an h-word asks only the region it chooses"
    fn chosen_alone(&mut self) {
        for (n, number) in CHOICES.into_iter().enumerate() {
            // All other regions grant the bytes, and then that one alone.
            let every = |word: u32| {
                ten(word).with(|m| {
                    CHOICES.iter().for_each(|other| m.regions[other - 1] = region(0x400, 0x100, 3));
                    m.regions[number - 1] = region(0x400, 0x100, 0);
                })
            };
            let op = 1 + n as u64 % 2;
            let word = if op == 1 { chosen_load(n, 2, 8) } else { chosen_store(n, 2, 8) };
            self.step(&format!("region {number} refuses, all others grant"), every(word), 16, |m| m.fault = fault(number as u64, op, 0x408));
            let alone = only(chosen_store(n, 2, 8), &[(number, region(0x400, 0x10, 2))]);
            self.step(&format!("region {number} grants alone"), alone, 0, next).stores(0x408, 4, 0x107);
        }
        let hidden = ten(chosen_load(0, 4, 0)).with(|m| m.regions[0] = region(0x680, 0x40, 1)).put(0x680, 0x77);
        self.step("hlbu where region 9 lacks read", hidden, 0, |m| (m.x[7], m.pc) = (0x77, 0x44));
    }

    /// Set and get of regions 4 to 10: "Selector, selected number ... go up to 10".
    fn settings(&mut self) {
        for selector in 4..=10usize {
            for funct7 in SET_BASE..=GET_PERMISSION {
                let value = if funct7 == SET_PERMISSION { largest_permission(selector) } else { ALL - selector as u64 };
                let base = outside(hfi(funct7)).with(|m| m.regions = ten(NOP).machine.regions);
                let world = base.with(|m| (m.selector, m.x[5]) = (selector as u64, value));
                self.step(&format!("funct7 {funct7}, selector {selector:x}"), world, 0, |m| region_word(m, funct7));
            }
        }
        let inside = ten(hfi(SET_BOUND)).with(|m| (m.options, m.selector, m.x[5]) = (0, 10, mask(12)));
        self.step("set bound of region a inside, unlocked", inside, 0, |m| (m.regions[9].bound, m.pc) = (mask(12), 0x44));
    }

    /// "a permission bit the region lacks", of regions 4 to 10.
    fn settings_refused(&mut self) {
        for selector in 4..=10usize {
            let largest = largest_permission(selector);
            for place in [0, 1, 2, 3, 63].into_iter().filter(|place| largest >> place & 1 == 0) {
                let world = outside(hfi(SET_PERMISSION)).with(|m| (m.selector, m.x[5]) = (selector as u64, 1 << place));
                self.step(&format!("set permission bit {place}, region {selector:x} lacks it"), world, 14, unchanged);
            }
        }
    }

    /// "Reset zeroes regions and selector": all ten.
    fn resets(&mut self) {
        let zeroed = |m: &mut Machine| (m.regions, m.selector, m.pc) = (Default::default(), 0, 0x44);
        let world = |mode: u64| ten(hfi(RESET)).with(|m| (m.mode, m.options, m.selector) = (mode, 8, 10));
        self.step("reset of ten regions", world(0), 0, zeroed);
        self.step("reset of ten regions inside, unlocked", world(1), 0, zeroed);
        self.step("reset of ten regions inside, locked", world(1).with(|m| m.options = 1), 25, unchanged);
    }

    /// "only the permission bits listed", of regions 4 to 10.
    fn permissions_of_ten(&mut self) {
        for number in 4..=10usize {
            let largest = largest_permission(number);
            let with = |permission: u64| outside(NOP).with(|m| m.regions[number - 1].permission = permission);
            self.step(&format!("region {number:x} permission {largest:x}, well formed"), with(largest), 0, next);
            for place in [0, 1, 2, 3, 4, 63].into_iter().filter(|place| largest >> place & 1 == 0) {
                let name = format!("region {number:x} permission bit {place}, not well formed");
                match place {
                    4 => drop(self.run(&name, with(1 << place), 5, (3, 0), unchanged)),
                    63 => self.resume(&name, with(1 << place), 7, 3, unchanged),
                    _ => drop(self.step(&name, with(1 << place), 3, unchanged)),
                }
            }
        }
    }

    /// "the lowest-numbered matching region of the kind decides, even if a later one would grant more"
    fn hidden_data(&mut self) {
        let (load, store) = (load(2, 7, 8, 0), store(2, 7, 8, 0));
        for (lower, higher) in PAIRS_OF_DATA {
            let world = |word: u32, low: Region, high: u64| {
                only(word, &[(lower, low), (higher, region(0x400, mask(8), high))]).put(0x410, 5).with(|m| m.x[8] = 0x410)
            };
            let same = |permission: u64| region(0x400, mask(8), permission);
            let name = |what: &str| format!("regions {lower} and {higher}, {what}");
            let loaded = |m: &mut Machine| (m.x[7], m.pc) = (5, 0x44);
            let faults = |op: u64| move |m: &mut Machine| m.fault = fault(lower as u64, op, 0x410);
            self.step(&name("the lower lacks write"), world(store, same(1), 3), 16, faults(2));
            self.step(&name("the lower lacks read"), world(load, same(2), 3), 16, faults(1));
            self.step(&name("the lower grants"), world(store, same(2), 1), 0, next).stores(0x410, 4, 0x107);
            self.step(&name("the lower breaks its rule"), world(load, region(0x410, mask(8), 0), 1), 0, loaded);
            if higher == lower + 1 {
                self.step(&name("the lower lies elsewhere"), world(store, region(0x500, mask(8), 0), 2), 0, next).stores(0x410, 4, 0x107);
            }
        }
        let bare = |word: u32| only(word, &[]).with(|m| m.x[8] = 0x410);
        self.step("no region of data, load", bare(load), 16, |m| m.fault = fault(0, 1, 0x410));
        let zero = |permission: u64| bare(load).with(|m| DATA.iter().for_each(|n| m.regions[n - 1].permission = permission));
        self.step("mask 0 in all four", zero(3), 16, |m| m.fault = fault(0, 1, 0x410));
        let last = bare(store).with(|m| DATA.iter().for_each(|n| m.regions[n - 1] = region(0x410, mask(2), (*n == 9) as u64 * 3)));
        self.step("four regions of data, 9 alone grants", last.clone(), 16, |m| m.fault = fault(2, 2, 0x410));
        let broken = last.with(|m| [2, 7, 8].iter().for_each(|n| m.regions[n - 1].bound = mask(5)));
        self.step("four regions of data, 9 alone keeps its rule", broken, 0, next).stores(0x410, 4, 0x107);
    }

    /// A lower region inside a later one: its bytes alone are hidden.
    fn hidden_part(&mut self) {
        for (lower, higher) in [(2, 7), (7, 9), (8, 9)] {
            let world = |word: u32, address: u64| {
                let regions = [(lower, region(0x480, mask(4), 1)), (higher, region(0x400, mask(8), 3))];
                only(word, &regions).with(|m| m.x[8] = address)
            };
            let (sd, ld) = (store(3, 7, 8, 0), load(3, 7, 8, 0));
            let name = |what: &str| format!("region {lower} inside region {higher}, {what}");
            self.step(&name("sd up to it"), world(sd, 0x478), 0, next).stores(0x478, 8, 0x107);
            self.step(&name("sd into it"), world(sd, 0x479), 16, |m| m.fault = fault(lower as u64, 2, 0x480));
            self.step(&name("sd out of it"), world(sd, 0x48f), 16, |m| m.fault = fault(lower as u64, 2, 0x48f));
            self.step(&name("sd after it"), world(sd, 0x490), 0, next).stores(0x490, 8, 0x107);
            self.step(&name("ld into it"), world(ld, 0x47c), 0, |m| (m.x[7], m.pc) = (0, 0x44));
        }
    }

    /// "Each byte is judged singly": accesses over two regions pass if each byte passes.
    fn across_data(&mut self) {
        for (lower, higher) in PAIRS_OF_DATA {
            let world = |word: u32, address: u64, first: usize, second: usize| {
                let regions = [(first, region(0x400, mask(8), 3)), (second, region(0x500, mask(8), 3))];
                only(word, &regions).put(0x4fc, 0x4433_2211).put(0x500, 0x8877_6655).with(|m| m.x[8] = address)
            };
            let ld = world(load(3, 7, 8, 0), 0x4fc, lower, higher);
            self.step(&format!("ld over regions {lower} and {higher}"), ld, 0, |m| (m.x[7], m.pc) = (0x8877_6655_4433_2211, 0x44));
            let sh = world(store(1, 7, 8, 0), 0x4ff, higher, lower);
            self.step(&format!("sh over regions {higher} and {lower}"), sh, 0, next).stores(0x4ff, 2, 0x107);
        }
        // A word over bytes of four regions.
        let four = |word: u32, permission: u64| {
            let at = |n: usize, address: u64| (n, region(address, mask(0), permission));
            only(word, &[at(9, 0x410), at(7, 0x411), at(2, 0x412), at(8, 0x413)]).put(0x410, 0x4433_2211).with(|m| m.x[8] = 0x410)
        };
        self.step("lwu over regions 9, 7, 2 and 8", four(load(6, 7, 8, 0), 1), 0, |m| (m.x[7], m.pc) = (0x4433_2211, 0x44));
        self.step("sw over regions 9, 7, 2 and 8", four(store(2, 7, 8, 0), 2), 0, next).stores(0x410, 4, 0x107);
    }

    /// The first refused byte, its region and its address, where the access lies over two regions.
    fn across_data_refused(&mut self) {
        let (ld, sd) = (load(3, 7, 8, 0), store(3, 7, 8, 0));
        for (lower, higher) in PAIRS_OF_DATA {
            for (first, second) in [(lower, higher), (higher, lower)] {
                let world = |word: u32, one: u64, two: u64| {
                    let regions = [(first, region(0x400, mask(8), one)), (second, region(0x500, mask(8), two))];
                    only(word, &regions).with(|m| m.x[8] = 0x4fd)
                };
                let name = |what: &str| format!("{what} over regions {first} and {second}");
                self.step(&name("sd, the second lacks write,"), world(sd, 3, 1), 16, |m| m.fault = fault(second as u64, 2, 0x500));
                if first == 2 || second == 9 {
                    self.step(&name("ld, the first lacks read,"), world(ld, 2, 3), 16, |m| m.fault = fault(first as u64, 1, 0x4fd));
                }
            }
        }
        let past = ten(ld).with(|m| m.x[8] = 0x67c);
        self.step("ld over regions 8 and 9, 9 without read", past, 16, |m| m.fault = fault(9, 1, 0x680));
        let past = ten(sd).with(|m| m.x[8] = 0x67c);
        self.step("sd over regions 8 and 9, 8 without write", past, 16, |m| m.fault = fault(8, 2, 0x67c));
        let past = ten(sd).with(|m| m.x[8] = 0x6fc);
        self.step("sd over region 9 and none", past, 16, |m| m.fault = fault(0, 2, 0x700));
        let short = ten(ld).with(|m| m.x[8] = 0x4fd).length(0x500);
        self.add("step: ld over regions 2 and 7, the second's bytes absent", Request::Step, short, (17, 0, 0x500), unchanged);
    }

    /// "A fetch asks region 3", and with Job 7 region 10 where 3 does not match.
    fn fetches(&mut self) {
        let world = |three: Region, ten: Region| only(NOP, &[(3, three), (10, ten)]);
        let whole = |permission: u64| region(0, mask(8), permission);
        self.step("code 3 and 10", world(whole(4), whole(4)), 0, next);
        self.step("code 3 hides 10", world(whole(0), whole(4)), 11, |m| m.fault = fault(3, 3, 0x40));
        self.step("code 3 grants, 10 would not", world(whole(4), whole(0)), 0, next);
        self.step("code 3 is zero, 10 grants", world(Region::default(), whole(4)), 0, next);
        self.step("code 3 breaks its rule, 10 grants", world(region(0x20, mask(8), 4), whole(4)), 0, next);
        self.step("code 3 breaks its rule, 10 lacks execute", world(region(0x20, mask(8), 4), whole(0)), 11, |m| m.fault = fault(10, 3, 0x40));
        self.step("code 3 elsewhere, 10 grants", world(region(0x100, mask(8), 0), whole(4)), 0, next);
        self.step("code 3 elsewhere, 10 lacks execute", world(region(0x100, mask(8), 4), whole(0)), 11, |m| m.fault = fault(10, 3, 0x40));
        self.step("code 3 and 10 break their rules", world(region(0x20, mask(8), 4), region(0, mask(49), 4)), 11, |m| m.fault = fault(0, 3, 0x40));
        self.step("code 3 and 10 elsewhere", world(region(0x100, mask(8), 4), region(0x200, mask(8), 4)), 11, |m| m.fault = fault(0, 3, 0x40));
        let data = only(NOP, &[(3, Region::default()), (7, region(0, mask(8), 3)), (4, region(0, 0x100, 3))]);
        self.step("data regions grant no fetch", data, 11, |m| m.fault = fault(0, 3, 0x40));
    }

    /// A word over two code regions, in both orders.
    fn fetches_across(&mut self) {
        let two = |base: u64, permission: u64| region(base, mask(1), permission);
        for (first, second) in [(3, 10), (10, 3)] {
            let world = |one: u64, other: u64| only(NOP, &[(3, Region::default()), (first, two(0x40, one)), (second, two(0x42, other))]);
            let name = |what: &str| format!("a word over code {first} and {second}{what}");
            self.step(&name(""), world(4, 4), 0, next);
            self.step(&name(", the first lacks execute"), world(0, 4), 11, |m| m.fault = fault(first as u64, 3, 0x40));
            self.step(&name(", the second lacks execute"), world(4, 0), 11, |m| m.fault = fault(second as u64, 3, 0x42));
        }
        let hidden = |base: u64| only(NOP, &[(3, two(base, 0)), (10, region(0, mask(8), 4))]);
        self.step("code 3 hides two bytes of 10, the word's last", hidden(0x42), 11, |m| m.fault = fault(3, 3, 0x42));
        self.step("code 3 hides two bytes of 10, not the word's", hidden(0x44), 0, next);
        let run = only(NOP, &[(3, region(0x40, mask(2), 4)), (10, region(0x44, mask(2), 4))]).put(0x44, NOP).put(0x48, NOP);
        self.run("from code 3 to code 10 and past it", run, 5, (11, 2), |m| (m.pc, m.fault) = (0x48, fault(0, 3, 0x48)));
    }

    /// "isolation and Job 5 now speak of all ten": each region that can be written against each code region.
    fn writable_in_each(&mut self) {
        for code in CODE {
            for data in CHOICES.into_iter().chain(DATA) {
                let regions = [(3, Region::default()), (code, region(0, mask(8), 4)), (data, sized(data, 0x80, 0x10, 2))];
                let world = |word: u32| only(word, &regions).with(|m| (m.options, m.x[5], m.x[6]) = (1, 1, 0x81));
                self.run(&format!("locked, region {data} inside code {code}"), world(NOP), 0, (4, 0), unchanged);
                let word = if data % 2 == 0 { hfi(ENTER) } else { hfi(ENTER_JUMP) };
                let name = format!("enter locked, region {data} inside code {code}");
                self.step(&name, world(word).with(|m| m.mode = 0), 22, unchanged);
            }
        }
        // All others beside, and one byte shared.
        for (data, code, byte) in [(6, 10, 0x1ff), (9, 10, 0x100), (4, 3, 0), (8, 3, 0xff)] {
            let world = ten(NOP).with(|m| (m.options, m.regions[data - 1]) = (1, sized(data, byte, 1, 2)));
            self.step(&format!("locked, region {data} is byte {byte:x} of code {code}"), world, 4, unchanged);
        }
    }

    /// The same regions beside code, without write, broken: not refused.
    fn writable_beside(&mut self) {
        self.step("ten regions apart, locked", ten(NOP).with(|m| m.options = 1), 0, next);
        let enter = ten(hfi(ENTER)).with(|m| (m.mode, m.x[5]) = (0, 1));
        self.step("ten regions apart, enter locked", enter, 0, |m| (m.mode, m.options, m.pc, m.fault.occurred) = (1, 1, 0x44, 0));
        for data in CHOICES.into_iter().chain(DATA) {
            let world = |region: Region| ten(NOP).with(|m| (m.options, m.regions[data - 1]) = (1, region));
            let name = |what: &str| format!("locked, region {data} {what}");
            self.step(&name("begins where code 10 ends"), world(sized(data, 0x200, 0x40, 3)), 0, next);
            self.step(&name("has code, without write"), world(sized(data, 0, 0x200, 1)), 0, next);
            let broken = if CHOICES.contains(&data) { region(0x40, 0, 3) } else { region(0x40, mask(7), 3) };
            self.step(&name("in code breaks its rule"), world(broken), 0, next);
        }
    }

    /// "A byte whose first matching data region lacks write is not writable"; a region that ends inside a later one hides
    /// its own bytes alone; explicit regions hide nothing and nothing hides them.
    fn hidden_and_locked(&mut self) {
        let code = |base: u64, size: u64| (3, sized(3, base, size, 4));
        for (lower, higher) in PAIRS_OF_DATA {
            let world = |low: Region, code: (usize, Region)| only(NOP, &[(lower, low), (higher, region(0, mask(8), 3)), code]).with(|m| m.options = 1);
            let name = |what: &str| format!("locked, regions {lower} and {higher} have code, {what}");
            self.step(&name("the lower hides it"), world(region(0, mask(8), 1), code(0, 0x100)), 0, next);
            self.step(&name("the lower ends inside"), world(region(0, mask(7), 1), code(0, 0x100)), 4, unchanged);
            self.step(&name("the lower ends where code does"), world(region(0, mask(7), 1), code(0x40, 0x40)), 0, next);
            self.step(&name("the lower breaks its rule"), world(region(4, mask(8), 1), code(0, 0x100)), 4, unchanged);
            self.step(&name("the lower has write"), world(region(0, mask(6), 2), code(0, 0x40)), 4, unchanged);
        }
        let three = |last: u64| {
            let hides = [(2, sized(2, 0, 0x80, 1)), (7, sized(7, 0x80, 0x40, 0)), (8, sized(8, 0xc0, last, 1)), (9, sized(9, 0, 0x100, 2))];
            only(NOP, &hides).with(|m| m.options = 1)
        };
        self.step("locked, regions 2, 7 and 8 hide 9 in code", three(0x40), 0, next);
        self.step("locked, regions 2, 7 and 8 hide half of it", three(0x20), 4, unchanged);
        self.step("locked, regions 2, 7 and 8 hide all but a byte less", three(0x10), 4, unchanged);
        for (one, other) in [(1, 4), (4, 5), (5, 6), (2, 4), (2, 1)] {
            let regions = [(one, sized(one, 0, 0x100, 1)), (other, region(0x40, 4, 2))];
            self.step(&format!("locked, region {one} lacks write, region {other} has it"), only(NOP, &regions).with(|m| m.options = 1), 4, unchanged);
        }
    }

    /// The same with code regions 3 and 10.
    fn hidden_code(&mut self) {
        let world = |three: Region, ten: Region, data: (usize, Region)| only(NOP, &[(3, three), (10, ten), data]).with(|m| m.options = 1);
        let (ten, all) = (region(0, mask(8), 4), (9, region(0, mask(8), 3)));
        self.step("locked, code 3 hides 10, region 9 has both", world(region(0, mask(8), 0), ten, all), 11, |m| m.fault = fault(3, 3, 0x40));
        self.step("locked, code 3 ends inside 10, region 9 has both", world(region(0, mask(7), 0), ten, all), 4, unchanged);
        let half = |base: u64| (4, region(base, 0x80, 2));
        self.step("locked, region 4 has what 3 hides of 10", world(region(0, mask(7), 0), ten, half(0)), 11, |m| m.fault = fault(3, 3, 0x40));
        self.step("locked, region 4 has what 3 leaves of 10", world(region(0x80, mask(7), 0), ten, half(0)), 4, unchanged);
        self.step("locked, region 4 beside what 3 leaves of 10", world(region(0x80, mask(7), 0), ten, half(0x80)), 0, next);
        self.step("locked, code 3 breaks its rule, 10 is written", world(region(0x10, mask(7), 0), ten, half(0)), 4, unchanged);
        self.step("locked, code 10 breaks its rule", world(region(0x40, mask(4), 4), region(0x10, mask(8), 4), half(0x80)), 0, next);
        self.step("locked, code 10 lacks execute", world(region(0x40, mask(4), 4), region(0, mask(8), 0), half(0x80)), 0, next);
        let top = world(region(0x40, mask(4), 4), region(1 << 47, mask(47), 4), (6, region((1 << 48) - 0x10000, 0x10000, 0xb)));
        self.step("locked, large region 6 has the last bytes of code 10", top, 4, unchanged);
    }

    /// Regions set outside, then used inside: a stack, a curve and a table at once.
    fn regions_in_runs(&mut self) {
        let sets = outside(hfi_fields(SELECT, 0, 1, 0))
            .with(|m| (m.x[1], m.x[2], m.x[3], m.x[4], m.x[5], m.x[9]) = (6, 0x300, 0x10, 3, 1, 0))
            .put(0x44, hfi_fields(SET_BASE, 0, 2, 0))
            .put(0x48, hfi_fields(SET_BOUND, 0, 3, 0))
            .put(0x4c, hfi_fields(SET_PERMISSION, 0, 4, 0))
            .put(0x50, hfi(ENTER))
            .put(0x54, chosen_store(3, 3, 8))
            .put(0x58, chosen_load(0, 3, 8))
            .put(0x5c, chosen_store(3, 0, 0x10));
        self.run("outside, sets region 6, enters locked, stores there, is refused", sets, 50, (16, 7), |m| {
            (m.mode, m.options, m.pc, m.selector, m.x[7]) = (1, 1, 0x5c, 6, 0);
            (m.regions[5], m.fault) = (region(0x300, 0x10, 3), fault(6, 2, 0x310));
        })
        .stores(0x308, 8, 0x107);
        let copies = ten(chosen_load(1, 3, 0))
            .with(|m| (m.options, m.x[9], m.x[8]) = (1, 8, 0x5fc))
            .put(0x248, 0x1234_5678)
            .put(0x44, chosen_store(2, 2, 0))
            .put(0x48, chosen_store(3, 1, 1))
            .put(0x4c, store(2, 7, 8, 0))
            .put(0x50, load(3, 6, 8, 0));
        let run = self.run("locked, copies through regions 4, 5, 6 and 7, loads over 7 and 8", copies, 5, (21, 5), |m| {
            (m.x[7], m.x[6], m.pc) = (0x1234_5678, 0x1234_5678, 0x54);
        });
        run.stores(0x288, 4, 0x1234_5678);
        run.stores(0x309, 2, 0x5678);
        run.stores(0x5fc, 4, 0x1234_5678);
        let jumps = ten(0x0c00_006f).with(|m| m.options = 1).put(0x100, NOP).put(0x104, hfi(EXIT));
        self.run("locked, jumps into code 10, exits there", jumps, 50, (20, 3), |m| {
            (m.mode, m.reason, m.exit_pc, m.pc) = (0, 1, 0x104, 0x108);
        });
    }
}

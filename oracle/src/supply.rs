//! Random machines, memories, words and sheets, with a bias to the edges.

use crate::half_words::{begins_long_word, expand, shortened};
use crate::instruction::{
    decode, encode, BranchKind, HfiKind, ImmediateKind, Instruction, LoadKind, RegisterKind, ShiftKind, StoreKind, SystemKind, UpperKind, BASE_ROWS, BRANCH_TABLE,
    HFI_TABLE, IMMEDIATE_TABLE, LOAD_TABLE, REGISTER_TABLE, SHIFT_TABLE, STORE_TABLE,
};
use crate::machine::{numbers_of_kind, region_kind, Fault, Machine, Region, RegionKind, EXPLICIT, IMPLICIT_DATA, REGIONS, WRITE};
use crate::numbers::bit;
use crate::overlap::{code_is_writable, executable_intervals, extent, locked_code_is_writable, Interval};
use crate::reach::{executable, readable};
use crate::sheet::SHEET_LIMIT;
use crate::step::{load_size, store_size};

const ALL: u64 = u64::MAX;

/// What rs1 and the immediate of an h-word are aimed at.
#[derive(Clone, Copy, Debug, PartialEq, Eq)]
pub enum Aim {
    /// rs1 is x0.
    X0,
    /// Another register holds 0.
    Zero,
    /// rs1 at most 2,054, all bytes inside.
    Inside,
    /// rs1 past 2,054, all bytes inside.
    Far,
    /// Offset past 4,095, all bytes inside.
    Further,
    /// rs1 about the bound.
    Bound,
    /// rs1 above 2^32, its low half inside.
    LowHalf,
    /// rs1 about this power of 2.
    Power(u32),
    /// rs1 about 2^64 - 1.
    Ones,
    /// First bytes before the region, later ones inside.
    Before,
    /// All bytes before the region.
    Below,
    /// An immediate below 0 that takes rs1 back to offset 0.
    Back,
    /// The region's last bytes.
    Last,
    /// First bytes inside, later ones past the bound.
    Over,
    /// All bytes past the bound.
    Past,
    /// A sum of 2^64 or more that would be inside if it wrapped.
    Around,
}

pub const AIMS: [Aim; 18] = [
    Aim::X0,
    Aim::Zero,
    Aim::Inside,
    Aim::Far,
    Aim::Further,
    Aim::Bound,
    Aim::LowHalf,
    Aim::Power(48),
    Aim::Power(62),
    Aim::Power(63),
    Aim::Ones,
    Aim::Before,
    Aim::Below,
    Aim::Back,
    Aim::Last,
    Aim::Over,
    Aim::Past,
    Aim::Around,
];

/// The memory of aimed h-words: longer than an immediate reaches, twice.
pub const AIMED_LENGTH: usize = 12_288;

/// What half-words can do to one register, and with another.
const SHORT_SHIFTS: [ShiftKind; 3] = [ShiftKind::Slli, ShiftKind::Srli, ShiftKind::Srai];
const SHORT_OPERATIONS: [RegisterKind; 6] =
    [RegisterKind::Sub, RegisterKind::Xor, RegisterKind::Or, RegisterKind::And, RegisterKind::Subw, RegisterKind::Addw];

/// Registers that a run leaves alone: two offsets inside region 1 and an edge.
const OFFSETS: [u64; 3] = [4, 12, 13];

/// Another, which counts the rounds of a loop.
const ROUNDS: u64 = 20;

/// Where the ordinary data of a locked sheet begins; an ADDI reaches its end.
const SHEET_DATA: u64 = 0x400;

/// A small generator of random numbers; the same seed gives the same numbers.
pub struct Supply {
    state: u64,
    /// How many rows of `REGISTER_TABLE` it draws from.
    rows: usize,
    /// Does it mostly keep writable bytes and code apart where they are locked?
    parts: bool,
    /// Does it put words that question 8 refuses where runs cross the mode?
    strays: bool,
    /// Does it draw all ten regions, and h-words that choose among them?
    ten: bool,
    /// Does it draw half-words, and long words at 2 past a multiple of 4?
    halves: bool,
}

impl Supply {
    pub fn new(seed: u64) -> Supply {
        Supply { state: seed, rows: REGISTER_TABLE.len(), parts: true, strays: true, ten: true, halves: true }
    }

    /// As before Job 2, so that what was stored then stays as it was.
    pub fn of_base(seed: u64) -> Supply {
        Supply { state: seed, rows: BASE_ROWS, parts: false, strays: false, ten: false, halves: false }
    }

    /// As before Job 5, likewise.
    pub fn of_rv64m(seed: u64) -> Supply {
        Supply { state: seed, rows: REGISTER_TABLE.len(), parts: false, strays: false, ten: false, halves: false }
    }

    /// As before Job 6, likewise.
    pub fn of_writable_code(seed: u64) -> Supply {
        Supply { state: seed, rows: REGISTER_TABLE.len(), parts: true, strays: false, ten: false, halves: false }
    }

    /// As before Job 7, likewise; an h-word then names x0 to x15 by the low
    /// four bits of what was drawn, and chooses region 1.
    pub fn of_rules(seed: u64) -> Supply {
        Supply { ten: false, halves: false, ..Supply::new(seed) }
    }

    /// As before Job 8, likewise.
    pub fn of_ten(seed: u64) -> Supply {
        Supply { halves: false, ..Supply::new(seed) }
    }

    pub fn next(&mut self) -> u64 {
        self.state = self.state.wrapping_add(0x9e37_79b9_7f4a_7c15);
        let mut z = self.state;
        z = (z ^ (z >> 30)).wrapping_mul(0xbf58_476d_1ce4_e5b9);
        z = (z ^ (z >> 27)).wrapping_mul(0x94d0_49bb_1331_11eb);
        z ^ (z >> 31)
    }

    /// 0 to n - 1
    pub fn below(&mut self, n: u64) -> u64 {
        self.next() % n
    }

    /// True once in n.
    pub fn once_in(&mut self, n: u64) -> bool {
        self.below(n) == 0
    }

    pub fn pick<T: Copy>(&mut self, from: &[T]) -> T {
        from[self.below(from.len() as u64) as usize]
    }

    /// A 64-bit number near an edge.
    pub fn edge(&mut self) -> u64 {
        let near = self.below(9).wrapping_sub(4);
        match self.below(8) {
            0 => self.below(16),
            1 => (1u64 << self.below(64)).wrapping_add(near),
            2 => (ALL << self.below(64)).wrapping_add(near),
            3 => self.pick(&[0, 0x7fff_ffff, 0x8000_0000, 0xffff_ffff, 0x7fff_ffff_ffff_ffff, 1 << 63, ALL]).wrapping_add(near),
            4 => self.next() >> self.below(64),
            5 => (self.next() as u32) as i32 as i64 as u64,
            6 => near,
            _ => self.next(),
        }
    }

    /// A whole number from one to another, both included.
    fn between(&mut self, low: i128, high: i128) -> i128 {
        low + (self.next() as i128).rem_euclid(high - low + 1)
    }

    fn register(&mut self) -> u64 {
        // A few registers often, so that values meet.
        if self.once_in(3) {
            self.below(32)
        } else {
            self.pick(&[0, 1, 5, 6, 7, 10, 11])
        }
    }

    fn register_kind(&mut self) -> RegisterKind {
        let rows = self.rows;
        self.pick(&REGISTER_TABLE[..rows]).0
    }

    fn immediate(&mut self) -> i64 {
        match self.below(4) {
            0 => self.pick(&[-2048, -2047, -1, 0, 1, 2046, 2047]),
            1 => self.below(32) as i64 - 16,
            2 => (self.below(64) * 8) as i64 - 256,
            _ => self.below(4096) as i64 - 2048,
        }
    }

    /// A branch or jump offset, mostly short and a multiple of 4.
    fn jump_offset(&mut self, width: u32) -> i64 {
        let half = 1i64 << (width - 1);
        match self.below(8) {
            0 => (self.next() as i64).rem_euclid(2 * half) / 2 * 2 - half,
            1 => self.below(64) as i64 * 2 - 64,
            _ => self.below(32) as i64 * 4 - 48,
        }
    }

    pub fn ten(&self) -> bool {
        self.ten
    }

    /// The region that an h-word chooses.
    pub fn choice(&mut self) -> u64 {
        if self.ten {
            self.pick(&EXPLICIT) as u64
        } else {
            1
        }
    }

    /// A legal instruction.
    pub fn instruction(&mut self) -> Instruction {
        let (rd, rs1, rs2) = (self.register(), self.register(), self.register());
        let value = self.immediate();
        match self.below(40) {
            0 => Instruction::Upper { kind: UpperKind::Lui, rd, field: self.below(1 << 20) },
            1 => Instruction::Upper { kind: UpperKind::Auipc, rd, field: self.pick(&[0, 1, 0xfffff, 0x80000]) },
            2 => Instruction::Jal { rd, offset: self.jump_offset(21) },
            3 => Instruction::Jalr { rd, rs1, offset: value },
            4..=7 => {
                let kind = self.pick(&BRANCH_TABLE).0;
                Instruction::Branch { kind, rs1, rs2, offset: self.jump_offset(13) }
            }
            8..=12 => Instruction::Load { kind: self.pick(&LOAD_TABLE).0, rd, rs1, offset: value },
            13..=16 => Instruction::Store { kind: self.pick(&STORE_TABLE).0, rs1, rs2, offset: value },
            17..=20 => {
                let kind = self.pick(&LOAD_TABLE).0;
                Instruction::HLoad { kind, region: self.choice(), rd: rd % 16, rs1: rs1 % 16, offset: value }
            }
            21..=23 => {
                let kind = self.pick(&STORE_TABLE).0;
                Instruction::HStore { kind, region: self.choice(), rs1: rs1 % 16, rs2: rs2 % 16, offset: value }
            }
            24..=27 => Instruction::Immediate { kind: self.pick(&IMMEDIATE_TABLE).0, rd, rs1, value },
            28..=29 => {
                let row = self.pick(&SHIFT_TABLE);
                Instruction::Shift { kind: row.0, rd, rs1, amount: self.below(1 << row.4) }
            }
            30..=34 => Instruction::Register { kind: self.register_kind(), rd, rs1, rs2 },
            35 => Instruction::Fence { rd, rs1, spare: self.below(4096) },
            36 => Instruction::System { kind: self.pick(&[SystemKind::Ecall, SystemKind::Ebreak]) },
            _ => {
                let (kind, has_rd, has_rs1, has_rs2) = self.pick(&HFI_TABLE);
                let keep = |has: bool, register: u64| if has { register } else { 0 };
                Instruction::Hfi { kind, rd: keep(has_rd, rd), rs1: keep(has_rs1, rs1), rs2: keep(has_rs2, rs2) }
            }
        }
    }

    /// A half-word: mostly legal, sometimes any with low bits that are not both
    /// ones.
    pub fn half_word(&mut self) -> u16 {
        loop {
            let half = self.next() as u16;
            if expand(half).is_some() || !begins_long_word(half) && self.once_in(8) {
                return half;
            }
        }
    }

    /// An instruction with a half-word that keeps a run going, as
    /// `steady_instruction` does. It stands at this place of code.
    fn steady_short(&mut self, at: usize) -> Instruction {
        let (rd, other) = (self.pick(&[9, 10, 11, 14, 15]), 8 + self.below(8));
        let value = self.below(64) as i64 - 32;
        let immediate = |kind, rd, rs1, value| Instruction::Immediate { kind, rd, rs1, value };
        match self.below(26) {
            0 | 1 => immediate(ImmediateKind::Addi, rd, rd, value),
            2 => immediate(self.pick(&[ImmediateKind::Addiw, ImmediateKind::Andi]), rd, rd, value),
            3 => immediate(ImmediateKind::Addi, rd, 0, value),
            4 => immediate(ImmediateKind::Addi, rd, 2, 4 + 4 * self.below(255) as i64),
            5 => Instruction::Upper { kind: UpperKind::Lui, rd, field: self.pick(&[1, 2, 31, 0xfffe0, 0xfffff]) },
            6 | 7 => Instruction::Shift { kind: self.pick(&SHORT_SHIFTS), rd, rs1: rd, amount: self.below(64) },
            8..=10 => Instruction::Register { kind: self.pick(&SHORT_OPERATIONS), rd, rs1: rd, rs2: other },
            11 => Instruction::Register { kind: RegisterKind::Add, rd, rs1: 0, rs2: 1 + self.below(31) },
            12 => Instruction::Register { kind: RegisterKind::Add, rd, rs1: rd, rs2: 1 + self.below(31) },
            n @ 13..=20 => self.steady_short_access(n % 4, rd, other),
            21..=23 => self.steady_short_jump(at, other),
            24 if self.once_in(24) => Instruction::System { kind: SystemKind::Ebreak },
            24 if self.once_in(8) => immediate(ImmediateKind::Addi, 2, 2, self.pick(&[-16, 16, 32])),
            _ => immediate(ImmediateKind::Addi, rd, rd, 1),
        }
    }

    /// A load or a store through x8 or x2, pointers into ordinary data.
    fn steady_short_access(&mut self, n: u64, rd: u64, other: u64) -> Instruction {
        let (rs1, near) = (self.pick(&[8, 2]), self.below(8) as i64);
        match n {
            0 => Instruction::Load { kind: LoadKind::Word, rd, rs1, offset: 4 * near },
            1 => Instruction::Load { kind: LoadKind::Double, rd, rs1, offset: 8 * near },
            2 => Instruction::Store { kind: StoreKind::Word, rs1, rs2: other, offset: 4 * near },
            _ => Instruction::Store { kind: StoreKind::Double, rs1, rs2: other, offset: 8 * near },
        }
    }

    /// A jump or a branch, mostly to a multiple of 4 near this place.
    fn steady_short_jump(&mut self, at: usize, other: u64) -> Instruction {
        let stray = if self.once_in(12) { 2 } else { 0 };
        let offset = self.below(12) as i64 * 4 - 16 - (at % 4) as i64 + stray;
        match self.below(8) {
            0 => Instruction::Jal { rd: 0, offset },
            1 => Instruction::Jalr { rd: 0, rs1: 3, offset: 0 },
            2 if self.once_in(8) => Instruction::Jalr { rd: 1, rs1: 3, offset: 0 },
            n => Instruction::Branch { kind: [BranchKind::Beq, BranchKind::Bne][n as usize % 2], rs1: other, rs2: 0, offset },
        }
    }

    /// A half-word that keeps a run going.
    fn steady_half(&mut self, at: usize) -> u16 {
        let instruction = self.steady_short(at);
        let halves = shortened(&instruction);
        assert!(!halves.is_empty(), "{instruction:?}");
        self.pick(halves)
    }

    /// Two half-words in place of the long one at this place.
    fn put_halves(&mut self, memory: &mut [u8], at: usize) {
        for place in [at, at + 2] {
            let half = if self.once_in(60) { self.half_word() } else { self.steady_half(place) };
            memory[place..place + 2].copy_from_slice(&half.to_le_bytes());
        }
    }

    /// The long words of places `first` to `last`, each 4 bytes, moved down by
    /// 2: a half-word before them, one after them, and the first is lost.
    fn shift_words(&mut self, memory: &mut [u8], first: usize, last: usize) {
        memory.copy_within(first + 4..last + 4, first + 2);
        for at in [first, last + 2] {
            // No jump: it would go by its place.
            let instruction = Instruction::Immediate { kind: ImmediateKind::Addi, rd: 9, rs1: 9, value: self.below(64) as i64 - 32 };
            let half = self.pick(shortened(&instruction));
            memory[at..at + 2].copy_from_slice(&half.to_le_bytes());
        }
    }

    /// Half-words among the long words of the first `half` bytes: in pairs, and
    /// about stretches of long words that then stand at 2 past a multiple of 4.
    fn blend(&mut self, memory: &mut [u8], half: usize) {
        let often = self.pick(&[2, 3, 8]);
        let mut at = 0;
        while at + 4 <= half {
            if self.once_in(often) {
                self.put_halves(memory, at);
            } else if self.once_in(12) && at + 24 <= half {
                self.shift_words(memory, at, at + 16);
                at += 16;
            }
            at += 4;
        }
    }

    /// A word: mostly legal, sometimes a legal one with a bit changed,
    /// sometimes any.
    pub fn word(&mut self) -> u32 {
        let instruction = self.instruction();
        let legal = encode(&instruction).expect("in range");
        match self.below(24) {
            0 => legal ^ 1 << self.below(32),
            1 => self.next() as u32,
            2 => {
                // any word of a known opcode
                let opcode = self.pick(&[
                    0x03u32, 0x0b, 0x0f, 0x13, 0x17, 0x1b, 0x23, 0x2b, 0x33, 0x37, 0x3b, 0x5b, 0x63, 0x67, 0x6f, 0x73,
                ]);
                (self.next() as u32) & !0x7f | opcode
            }
            _ => legal,
        }
    }

    /// An instruction that keeps a run going: x1, x2 and x8 stay pointers into
    /// region 2, x3 into region 3; offsets are small; few words stop.
    fn steady_instruction(&mut self) -> Instruction {
        let mut instruction = self.instruction();
        // What a run may write; the low four bits of each too, for an h-word. `OFFSETS` are not among them.
        let rd_steady = match self.ten {
            true => self.pick(&[5, 6, 7, 9, 10, 11, 14, 15, 16, 30, 31, 0]),
            false => self.pick(&[5, 6, 7, 9, 10, 11, 12, 13, 14, 15, 16, 30, 31, 0]),
        };
        let pointer = self.pick(&[1, 2, 8]);
        let near = self.below(96) as i64 - 48;
        let ahead = if self.once_in(24) { self.below(2048) as i64 } else { self.below(48) as i64 };
        let short = self.below(12) as i64 * 4 - 16;
        match &mut instruction {
            Instruction::Load { rd, rs1, offset, .. } => {
                *rd = rd_steady;
                *rs1 = pointer;
                *offset = near;
            }
            Instruction::Store { rs1, offset, .. } => {
                *rs1 = pointer;
                *offset = near;
            }
            Instruction::HLoad { rd, offset, .. } => {
                *rd = rd_steady % 16;
                *offset = ahead;
            }
            Instruction::HStore { offset, .. } => *offset = ahead,
            Instruction::Jal { rd, offset } => {
                *rd = rd_steady;
                *offset = short;
            }
            Instruction::Jalr { rd, rs1, offset } => {
                *rd = rd_steady;
                *rs1 = 3;
                *offset = self.below(64) as i64 * 4 + self.below(2) as i64;
            }
            Instruction::Branch { offset, .. } => *offset = short,
            Instruction::System { .. } | Instruction::Hfi { .. } => {
                if !self.once_in(6) {
                    return Instruction::Register { kind: self.register_kind(), rd: rd_steady, rs1: 5, rs2: 6 };
                }
            }
            Instruction::Upper { rd, .. }
            | Instruction::Immediate { rd, .. }
            | Instruction::Shift { rd, .. }
            | Instruction::Register { rd, .. } => *rd = rd_steady,
            Instruction::Fence { .. } => {}
        }
        instruction
    }

    /// A machine in HFI mode and a memory in which runs go on for a while:
    /// code in the lower half, ordinary data in a block of the upper half,
    /// explicit data anywhere, but mostly not writable in the lower half where
    /// it is locked. Locked three times in four.
    pub fn steady_world(&mut self) -> (Machine, Vec<u8>) {
        self.steady_world_with(0)
    }

    /// The same, always locked.
    pub fn locked_world(&mut self) -> (Machine, Vec<u8>) {
        self.steady_world_with(1)
    }

    /// The same, always locked, with a memory of twice 2^k bytes at most.
    pub fn locked_world_of(&mut self, k: u64) -> (Machine, Vec<u8>) {
        let (mut machine, mut memory) = self.steady_world_of(k, 1);
        self.give_offsets(&mut machine, &mut memory);
        (machine, memory)
    }

    /// The same with these options and others.
    fn steady_world_with(&mut self, options: u64) -> (Machine, Vec<u8>) {
        let k = self.pick(&[7, 8, 9, 10, 11, 11, 12, 12]); // half of 128 to 4,096 bytes each
        let (mut machine, mut memory) = self.steady_world_of(k, options);
        self.give_offsets(&mut machine, &mut memory);
        (machine, memory)
    }

    /// An explicit region's number. In a longer memory it is often one past what
    /// an immediate reaches, and where that must not have code, memory gets more
    /// bytes for it.
    fn far_region(&mut self, machine: &mut Machine, memory: &mut Vec<u8>) -> usize {
        let half = memory.len() as u64 / 2;
        let number = self.pick(&EXPLICIT);
        if half > 2_000 && !self.once_in(5) {
            let permission = self.pick(&[3, 3, 3, 3, 1, 2]);
            machine.regions[number - 1] = Region { base: self.below(64), bound: half + self.below(half), permission };
            if locked_code_is_writable(machine) && !self.once_in(8) {
                machine.regions[number - 1].base += half;
                memory.extend((0..half).map(|_| self.next() as u8));
            }
        }
        if locked_code_is_writable(machine) && !self.once_in(4) {
            self.part(machine);
        }
        number
    }

    /// Puts offsets inside an explicit region into registers that a run leaves
    /// alone, and lets most h-words of the lower half use them there, so that
    /// runs go on.
    pub fn give_offsets(&mut self, machine: &mut Machine, memory: &mut Vec<u8>) {
        let half = memory.len() as u64 / 2;
        let number = self.far_region(machine, memory);
        let region = machine.regions[number - 1];
        let end = region.bound.min((memory.len() as u64).saturating_sub(region.base)); // of what is in memory
        let last = end.saturating_sub(48).max(1);
        machine.x[OFFSETS[0] as usize] = self.below(last).max(24);
        machine.x[OFFSETS[1] as usize] = (last - self.below(last.min(128))).max(24);
        machine.x[OFFSETS[2] as usize] = self.edge();
        for at in (0..half as usize / 4).map(|n| 4 * n) {
            let word = u32::from_le_bytes(memory[at..at + 4].try_into().unwrap());
            let (register, immediate, there) = match self.below(48) {
                0 => continue,
                1 => (OFFSETS[2], self.immediate(), true),
                2..=8 => (0, self.below(40) as i64, false),
                n => (OFFSETS[n as usize % 2], self.below(64) as i64 - 24, true),
            };
            let aimed = match decode(word) {
                Some(Instruction::HLoad { kind, region, rd, .. }) => {
                    let region = if there { number as u64 } else { region };
                    Instruction::HLoad { kind, region, rd, rs1: register, offset: immediate }
                }
                Some(Instruction::HStore { kind, region, rs2, .. }) => {
                    let region = if there { number as u64 } else { region };
                    Instruction::HStore { kind, region, rs1: register, rs2, offset: immediate }
                }
                _ => continue,
            };
            let word = encode(&aimed).expect("in range");
            memory[at..at + 4].copy_from_slice(&word.to_le_bytes());
        }
    }

    /// Random bytes for aimed h-words.
    pub fn aimed_memory(&mut self) -> Vec<u8> {
        (0..AIMED_LENGTH).map(|_| self.next() as u8).collect()
    }

    /// A region 1 that keeps its rule, of `least` to `most` bytes, mostly in
    /// memory: small ones of all lengths, the largest small one, large ones.
    fn open_region(&mut self, least: u64, most: u64, wanted: u64) -> Region {
        let permission = self.pick(&[3, 3, wanted]);
        let edges = [(0, 65_536, 8), (0, 1 << 32, 0), (0, 1 << 48, 8)];
        let (base, bound, large) = self.pick(&edges);
        if least <= bound && bound <= most && self.once_in(4) {
            return Region { base, bound, permission: permission | large };
        }
        let more = match self.below(4) {
            0 => self.below(9),
            1 => self.pick(&[2_040u64, 4_080, 8_180]).saturating_sub(least) + self.below(24),
            2 => self.below(4_096),
            _ => self.below(64),
        };
        let bound = (least + more).min(most);
        // Most of it in memory, now and then across its end.
        let last = (AIMED_LENGTH as u64).saturating_sub(if self.once_in(6) { 8 } else { bound });
        Region { base: self.below(last.max(1)), bound, permission }
    }

    /// rs1's value and an immediate that come to an offset.
    fn parted(&mut self, offset: i128) -> (u64, i64) {
        let low = (offset - ALL as i128).max(-2_048);
        let immediate = match self.below(3) {
            0 if low <= 0 && offset >= 0 => 0,
            1 => self.between(low.max(-16), 16.min(offset).max(low.max(-16))),
            _ => self.between(low, offset.clamp(low, 2_047)),
        };
        ((offset - immediate) as u64, immediate as i64)
    }

    /// rs1's value, an immediate and a region for an access of `size` bytes,
    /// so that what the aim says holds.
    fn aimed_offset(&mut self, aim: Aim, size: u64, wanted: u64) -> (u64, i64, Region) {
        let (least, most) = match aim {
            Aim::Inside | Aim::Over | Aim::Around => (size + 1, 1 << 48),
            Aim::Far => (2_055 + size, 1 << 48),
            Aim::Further => (4_096 + size, 1 << 48),
            Aim::LowHalf => (size, 1 << 32),
            Aim::Back => (size, 4_096),
            _ => (size, 1 << 48),
        };
        let region = self.open_region(least, most, wanted);
        let (size, bound) = (size as i128, region.bound as i128);
        let last = bound - size; // the last offset with all bytes inside
        let held = (AIMED_LENGTH as i128 - region.base as i128 - size).clamp(0, last); // and in memory
        let small = self.between(-16, 16);
        let any = if self.once_in(2) { small } else { self.between(-2_048, 2_047) };
        let (rs1, immediate) = match aim {
            Aim::X0 | Aim::Zero => (0, self.between(-9, (bound + 9).min(2_047))),
            Aim::Inside => {
                let rs1 = self.between(1, held.clamp(1, 2_054));
                (rs1, self.between((-rs1).max(-2_048), (last - rs1).min(2_047)))
            }
            Aim::Far => {
                let rs1 = self.between(2_055, held.max(2_055));
                (rs1, self.between(-2_048, (last - rs1).min(2_047)))
            }
            Aim::Further => {
                let offset = self.between(4_096, held.max(4_096));
                let (rs1, immediate) = self.parted(offset);
                (rs1 as i128, immediate as i128)
            }
            Aim::Bound => ((bound + self.between(-9, 9)).max(0), any),
            Aim::LowHalf => {
                let low = self.between(0, held);
                let immediate = self.between((-low).max(-2_048), (last - low).min(2_047));
                (((1 + self.next() as i128 % 0xffff_ffff) << 32) + low, immediate)
            }
            Aim::Power(n) => ((1 << n) + small, any),
            Aim::Ones => (ALL as i128 - self.between(0, 15), any),
            Aim::Before => {
                let offset = -self.between(1, (size - 1).max(1));
                let rs1 = self.between(0, 2_048 + offset);
                (rs1, offset - rs1)
            }
            Aim::Below => {
                let offset = -size - if self.once_in(2) { self.between(0, 8) } else { self.between(0, 2_040) };
                let rs1 = self.between(0, 2_048 + offset);
                (rs1, offset - rs1)
            }
            Aim::Back => {
                let rs1 = self.between(1, 2_048);
                (rs1, -rs1)
            }
            Aim::Last | Aim::Over | Aim::Past => {
                let offset = match aim {
                    Aim::Last => last,
                    Aim::Over if size > 1 => self.between(last + 1, bound - 1),
                    _ => bound + self.between(0, 9),
                };
                let (rs1, immediate) = self.parted(offset);
                (rs1 as i128, immediate as i128)
            }
            Aim::Around => {
                let before = self.between(1, 2_000); // 2^64 - rs1
                ((1 << 64) - before, self.between(before, (before + last).min(2_047)))
            }
        };
        (rs1 as u64, immediate as i64, region)
    }

    /// A machine in HFI mode about to make an h-word, the n-th of the loads
    /// and stores, that is aimed so, through the explicit region `number`, which
    /// grants it if its offset is good. Half of them, and each `Back`, name one
    /// register twice.
    pub fn aimed_h_word(&mut self, aim: Aim, n: usize, number: usize, memory: &mut [u8]) -> Machine {
        let mut machine = self.well_formed_machine(memory.len());
        machine.mode = 1;
        machine.pc = self.below(memory.len() as u64 / 4) * 4;
        machine.regions[2] = Region { base: 0, bound: ALL << 16, permission: 4 };
        let rs1 = if aim == Aim::X0 { 0 } else { 1 + self.below(15) };
        let other = if aim == Aim::Back || self.once_in(2) { rs1 } else { self.register() % 16 };
        let (size, wanted) = match n {
            0..=6 => (load_size(LOAD_TABLE[n].0), 1),
            _ => (store_size(STORE_TABLE[n - 7].0), 2),
        };
        let (value, offset, region) = self.aimed_offset(aim, size, wanted);
        machine.regions[number - 1] = region;
        machine.set(rs1, value);
        self.unrefused(&mut machine);
        let region = number as u64;
        let word = match n {
            0..=6 => Instruction::HLoad { kind: LOAD_TABLE[n].0, region, rd: other, rs1, offset },
            _ => Instruction::HStore { kind: STORE_TABLE[n - 7].0, region, rs1, rs2: other, offset },
        };
        let at = machine.pc as usize;
        memory[at..at + 4].copy_from_slice(&encode(&word).expect("in range").to_le_bytes());
        machine
    }

    /// A machine that 4 would refuse has the word at its pc for code, or where
    /// that is writable too, no lock.
    pub fn unrefused(&self, machine: &mut Machine) {
        if self.parts && locked_code_is_writable(machine) {
            machine.regions[2] = Region { base: machine.pc, bound: ALL << 2, permission: 4 };
        }
        if self.parts && locked_code_is_writable(machine) {
            machine.options -= 1;
        }
    }

    /// The same through any region, good or broken, with or without the
    /// permission.
    pub fn h_word_of_any_region(&mut self, memory: &mut [u8]) -> Machine {
        let (aim, n, number) = (self.pick(&AIMS), self.below(11) as usize, self.pick(&EXPLICIT));
        let mut machine = self.aimed_h_word(aim, n, number, memory);
        machine.regions[number - 1] = self.explicit_region(memory.len());
        self.part_if_locked(&mut machine);
        machine
    }

    fn steady_world_of(&mut self, k: u64, options: u64) -> (Machine, Vec<u8>) {
        let half = 1usize << k;
        let length = 2 * half - if self.once_in(8) { self.below(16) as usize } else { 0 };
        let mut memory: Vec<u8> = (0..length).map(|_| self.next() as u8).collect();
        for at in (0..half / 4).map(|n| 4 * n) {
            let word = if self.once_in(200) {
                self.word()
            } else {
                let instruction = self.steady_instruction();
                encode(&instruction).expect("in range")
            };
            memory[at..at + 4].copy_from_slice(&word.to_le_bytes());
        }
        let mut machine = self.well_formed_machine(length);
        machine.mode = 1;
        machine.options = self.below(16) | if self.once_in(2) { 1 } else { 0 } | options;
        machine.regions[2] = Region { base: 0, bound: ALL << k, permission: 4 };
        let inner = k - self.below(2);
        let base = half as u64 + if inner < k && self.once_in(2) { 1 << inner } else { 0 };
        let permission = self.pick(&[3, 3, 3, 3, 3, 1, 2]);
        machine.regions[1] = Region { base, bound: ALL << inner, permission };
        if !self.once_in(8) {
            let permission = self.pick(&[3, 3, 3, 3, 1, 2]);
            let start = if self.once_in(2) { half as u64 } else { 0 };
            let base = start + self.below(half as u64);
            machine.regions[0] = Region { base, bound: 8 + self.below(half as u64), permission };
        }
        if self.ten {
            self.spread_regions(&mut machine, half as u64, k, (base, inner));
        }
        if self.parts && locked_code_is_writable(&machine) && !self.once_in(12) {
            self.part_above(&mut machine, half as u64);
        }
        self.point_into(&mut machine, half as u64, (base, inner));
        if self.halves && !self.once_in(3) {
            self.blend(&mut memory, half);
        }
        (machine, memory)
    }

    /// Pointers into ordinary data and into code, and a place to begin.
    fn point_into(&mut self, machine: &mut Machine, half: u64, (base, inner): (u64, u64)) {
        for pointer in [1, 2, 8] {
            machine.x[pointer] = base + self.below(1 << inner);
            if !self.once_in(8) {
                machine.x[pointer] = base + 48 + self.below((1u64 << inner).saturating_sub(104).max(1));
            }
        }
        machine.x[3] = self.below(half / 8) * 4;
        machine.pc = self.below(half / 8) * 4;
    }

    /// Other regions for a steady world: explicit ones like region 1; the block
    /// of ordinary data, 2^inner bytes from a base on, in one region, in four
    /// that touch, or with a small one inside; code in one region or in two.
    fn spread_regions(&mut self, machine: &mut Machine, half: u64, k: u64, (base, inner): (u64, u64)) {
        for number in [4, 5, 6] {
            let permission = self.pick(&[3, 3, 3, 3, 3, 3, 3, 3, 1, 2]);
            let start = if self.once_in(2) { half } else { 0 };
            let region = Region { base: start + self.below(half), bound: 48 + self.below(half), permission };
            machine.regions[number - 1] = if self.once_in(12) { self.explicit_region(half as usize) } else { region };
        }
        let order = self.shuffled(IMPLICIT_DATA);
        match self.below(4) {
            0 => {}
            1 => {
                // A quarter each, whichever number it is.
                for (n, number) in order.into_iter().enumerate() {
                    let quarter = base + ((n as u64) << (inner - 2));
                    machine.regions[number - 1] = Region { base: quarter, bound: ALL << (inner - 2), permission: self.pick(&[3, 3, 3, 3, 3, 3, 1, 2]) };
                }
            }
            _ => {
                // One has the block, a lower or a higher one some bytes of it.
                let place = base + (self.below(1 << (inner - 4)) << 4);
                let (small, whole) = (Region { base: place, bound: ALL << 4, permission: self.pick(&[3, 3, 1, 2, 0]) }, machine.regions[1]);
                IMPLICIT_DATA.iter().for_each(|number| machine.regions[number - 1] = Region::default());
                (machine.regions[order[0] - 1], machine.regions[order[1] - 1]) = (small, whole);
            }
        }
        let code = |base: u64, k: u64| Region { base, bound: ALL << k, permission: 4 };
        let pair = match self.below(5) {
            0 => [code(0, k - 1), code(1 << (k - 1), k - 1)],
            1 => [code(1 << (k - 1), k - 1), code(0, k)],
            2 => [Region { permission: 0, ..code(self.below(half / 4) * 4, 2) }, code(0, k)],
            3 => [Region::default(), code(0, k)],
            _ => [code(0, k), machine.regions[9]],
        };
        (machine.regions[2], machine.regions[9]) = (pair[0], pair[1]);
    }

    fn shuffled(&mut self, mut numbers: [usize; 4]) -> [usize; 4] {
        for n in (1..4).rev() {
            numbers.swap(n, self.below(n as u64 + 1) as usize);
        }
        numbers
    }

    /// A memory whose code goes in and out of HFI mode, and a machine outside
    /// it (one in five inside). The lower half is blocks of 16 words: 6 work
    /// outside, one enters, 7 work inside, one leaves, one jumps to a block. The
    /// handler is the start of a block; x20 to x22 hold options, x23 to x25
    /// where the inner part of a block begins, x27 a region's number, x28 a
    /// handler. Twice 2^k bytes, now and then a few fewer.
    pub fn crossing_world(&mut self, k: u64) -> (Machine, Vec<u8>) {
        let (mut machine, mut memory) = self.steady_world_of(k, 0);
        // An enter that locks gets 22 where code is writable.
        if self.parts && code_is_writable(&machine) && self.once_in(2) {
            self.part_above(&mut machine, 1 << k);
        }
        let blocks = (1u64 << k) / 64;
        for place in 0..16 * blocks {
            let instruction = match place % 16 {
                0..=5 => self.outer_work(),
                6 => self.enter(),
                7..=13 => self.inner_work(),
                14 => self.leave(),
                _ => Instruction::Jal { rd: 0, offset: (self.below(blocks) * 64) as i64 - 4 * place as i64 },
            };
            let word = encode(&instruction).expect("in range");
            let at = 4 * place as usize;
            memory[at..at + 4].copy_from_slice(&word.to_le_bytes());
        }
        if self.halves {
            (0..blocks as usize).for_each(|block| self.shorten_block(&mut memory, 64 * block));
        }
        for n in 20..23 {
            machine.x[n] = if self.once_in(40) { self.edge() } else { self.below(16) };
            machine.x[n + 3] = self.below(blocks) * 64 + 28;
        }
        machine.x[27] = 1 + self.below(if self.ten { 10 } else { 3 });
        machine.x[28] = self.below(blocks) * 64 + self.below(4);
        machine.handler = self.below(blocks) * 64;
        machine.mode = self.once_in(5) as u64;
        machine.pc = self.below(blocks) * 64 + 28 * machine.mode;
        (machine, memory)
    }

    /// Half-words in a block of `crossing_world`: for work, and about the word
    /// that enters or the one that leaves, which then stand at 2 past a multiple
    /// of 4.
    fn shorten_block(&mut self, memory: &mut [u8], block: usize) {
        for place in [0, 1, 2, 3, 7, 8, 9, 10, 11] {
            if self.once_in(4) {
                self.put_halves(memory, block + 4 * place);
            }
        }
        for first in [4, 12] {
            if self.once_in(2) {
                self.shift_words(memory, block + 4 * first, block + 4 * first + 8);
            }
        }
    }

    fn plain_work(&mut self) -> Instruction {
        loop {
            let instruction = self.steady_instruction();
            match instruction {
                Instruction::System { .. } | Instruction::Hfi { .. } => {}
                Instruction::Jal { .. } | Instruction::Jalr { .. } | Instruction::Branch { .. } if !self.once_in(8) => {}
                _ => return instruction,
            }
        }
    }

    /// A word of question 8: any of opcode 5b, with x20, x27 or another as its
    /// operand, or an h-word.
    fn stray(&mut self) -> Instruction {
        let (kind, has_rd, has_rs1, has_rs2) = self.pick(&HFI_TABLE);
        let keep = |has: bool, register: u64| if has { register } else { 0 };
        let (rd, rs1, rs2) = (self.pick(&[0, 5, 6, 7]), self.pick(&[0, 5, 20, 27]), 23 + self.below(3));
        match self.below(4) {
            0 => Instruction::HLoad { kind: self.pick(&LOAD_TABLE).0, region: self.choice(), rd, rs1: 0, offset: 0 },
            1 => Instruction::Hfi { kind: HfiKind::Exit, rd: 0, rs1: 0, rs2: 0 },
            _ => Instruction::Hfi { kind, rd: keep(has_rd, rd), rs1: keep(has_rs1, rs1), rs2: keep(has_rs2, rs2) },
        }
    }

    fn outer_work(&mut self) -> Instruction {
        if self.strays && self.once_in(40) {
            return self.stray();
        }
        let rd = self.pick(&[5, 6, 7, 9]);
        match self.below(24) {
            0 => Instruction::Hfi { kind: HfiKind::Select, rd: 0, rs1: 27, rs2: 0 },
            1 => Instruction::Hfi { kind: HfiKind::SetHandler, rd: 0, rs1: 28, rs2: 0 },
            2 => Instruction::Hfi { kind: HfiKind::GetHandler, rd, rs1: 0, rs2: 0 },
            3 => Instruction::Hfi { kind: self.pick(&[HfiKind::GetBase, HfiKind::GetBound, HfiKind::GetPermission]), rd, rs1: 0, rs2: 0 },
            _ => loop {
                let instruction = self.plain_work();
                if !matches!(instruction, Instruction::HLoad { .. } | Instruction::HStore { .. }) {
                    return instruction;
                }
            },
        }
    }

    fn inner_work(&mut self) -> Instruction {
        if self.strays && self.once_in(40) {
            return self.stray();
        }
        if self.once_in(60) {
            return self.steady_instruction();
        }
        self.plain_work()
    }

    fn enter(&mut self) -> Instruction {
        let rs1 = 20 + self.below(3);
        if self.once_in(2) {
            Instruction::Hfi { kind: HfiKind::Enter, rd: 0, rs1, rs2: 0 }
        } else {
            Instruction::Hfi { kind: HfiKind::EnterJump, rd: 0, rs1, rs2: 23 + self.below(3) }
        }
    }

    fn leave(&mut self) -> Instruction {
        if self.once_in(4) {
            Instruction::System { kind: SystemKind::Ecall }
        } else {
            Instruction::Hfi { kind: HfiKind::Exit, rd: 0, rs1: 0, rs2: 0 }
        }
    }

    /// A machine about to make a step of a chosen word, so that each
    /// instruction is met, over a nearly empty memory as long as given, a
    /// multiple of 8.
    pub fn single_step(&mut self, length: usize) -> (Machine, Vec<u8>) {
        let mut memory: Vec<u8> = vec![0; length];
        for _ in 0..4 {
            let at = self.below(length as u64 / 8) as usize * 8;
            memory[at..at + 8].copy_from_slice(&self.next().to_le_bytes());
        }
        let machine = self.chosen_word(&mut memory);
        (machine, memory)
    }

    /// A chosen word in a memory of at least 4 bytes, and a machine about to
    /// make a step of it.
    pub fn chosen_word(&mut self, memory: &mut [u8]) -> Machine {
        let mut machine = self.machine(memory.len());
        machine.pc = self.below(memory.len() as u64 / 4) * 4;
        machine.mode = self.below(2);
        if machine.mode == 1 {
            let k = 12 + self.below(8);
            machine.regions[2] = Region { base: 0, bound: ALL << k, permission: 4 };
        }
        let mut word = self.word();
        if self.once_in(3) {
            // An HFI word with a small operand, mostly unlocked.
            word = self.hfi_word();
            machine.x[5] = match self.below(4) {
                0 => self.edge(),
                1 => self.below(20) + (1 << (32 + self.below(32))),
                _ => self.below(20),
            };
            machine.x[6] = self.below(64) * 4 + if self.once_in(2) { self.below(4) } else { 0 };
            machine.options &= self.pick(&[14, 14, 14, 15]);
        }
        if self.halves && self.once_in(3) {
            self.step_by_2(&mut machine, memory.len());
        }
        self.part_if_locked(&mut machine);
        let at = machine.pc as usize;
        memory[at..at + 4].copy_from_slice(&word.to_le_bytes());
        if self.halves && self.once_in(4) {
            memory[at..at + 2].copy_from_slice(&self.half_word().to_le_bytes());
        }
        machine
    }

    /// A pc 2 past a multiple of 4, where a long word there has room.
    fn step_by_2(&mut self, machine: &mut Machine, length: usize) {
        if machine.pc % 4 == 0 && machine.pc + 6 <= length as u64 {
            machine.pc += 2;
        }
    }

    /// Takes most machines that 4 would refuse to others: unlocked ones, or
    /// such that nothing writable is code.
    fn part_if_locked(&mut self, machine: &mut Machine) {
        if !self.parts || !locked_code_is_writable(machine) || self.once_in(8) {
            return;
        }
        if self.once_in(2) {
            machine.options -= 1;
        } else {
            self.part(machine);
        }
    }

    /// Moves each writable region that has code to one side of it, or takes the
    /// write permission away. A region that is moved may have hidden another;
    /// then no data region that has code keeps the permission.
    pub fn part(&mut self, machine: &mut Machine) {
        self.part_once(machine);
        if code_is_writable(machine) {
            let code = executable_intervals(machine);
            for number in (1..=REGIONS).filter(|number| region_kind(*number) != RegionKind::ImplicitCode) {
                let own = extent(region_kind(number), &machine.regions[number - 1]);
                if own.is_some_and(|own| code.iter().any(|other| own.meet(*other).is_some())) {
                    machine.regions[number - 1].permission &= !(1 << WRITE);
                }
            }
        }
    }

    fn part_once(&mut self, machine: &mut Machine) {
        let code = executable_intervals(machine);
        let meets = |own: Interval| code.iter().find(|other| own.meet(**other).is_some()).copied();
        for number in 1..=REGIONS {
            let (kind, region) = (region_kind(number), machine.regions[number - 1]);
            let Some(own) = extent(kind, &region) else { continue };
            if kind == RegionKind::ImplicitCode || !bit(region.permission, WRITE) {
                continue;
            }
            let Some(other) = meets(own) else { continue };
            let base = self.pick(&[other.end, other.start.saturating_sub(own.end - own.start)]) as u64;
            let moved = Region { base, ..region };
            let apart = extent(kind, &moved).is_some_and(|own| meets(own).is_none());
            let barred = Region { permission: region.permission & !(1 << WRITE), ..region };
            machine.regions[number - 1] = if apart && !self.once_in(3) { moved } else { barred };
        }
    }

    /// Code being the first `half` bytes: explicit regions go as far above, or
    /// are parted otherwise.
    fn part_above(&mut self, machine: &mut Machine, half: u64) {
        for number in EXPLICIT {
            let region = &mut machine.regions[number - 1];
            if region.base < half && (number == 1 || region.bound > 0) {
                region.base += half;
            }
        }
        if code_is_writable(machine) {
            self.part(machine);
        }
    }

    /// 0 or the number of a region.
    fn region_number(&mut self) -> u64 {
        self.below(if self.ten { 11 } else { 4 })
    }

    /// A machine with any numbers in its fields, well formed more often than
    /// not.
    pub fn any_state(&mut self) -> Machine {
        let mut machine = self.machine(4096);
        machine.pc = self.edge();
        machine.mode = self.below(2);
        machine.reason = self.below(3);
        machine.exit_pc = self.edge();
        machine.selector = self.region_number();
        machine.fault = Fault { occurred: self.below(2), region: self.region_number(), op: self.below(4), address: self.edge() };
        for n in 1..32 {
            machine.x[n] = self.edge();
        }
        if self.once_in(2) {
            self.spoil(&mut machine);
        }
        machine
    }

    /// A legal word of opcode 5b with x5 as rs1, x6 as rs2.
    pub fn hfi_word(&mut self) -> u32 {
        let (kind, has_rd, has_rs1, has_rs2) = self.pick(&HFI_TABLE);
        let rd = if has_rd { self.register() } else { 0 };
        let rs1 = if has_rs1 { 5 } else { 0 };
        let rs2 = if has_rs2 { 6 } else { 0 };
        encode(&Instruction::Hfi { kind, rd, rs1, rs2 }).expect("in range")
    }

    /// A mask of an implicit region with k trailing zeros.
    fn mask(&mut self, k: u64) -> u64 {
        if k >= 64 {
            0
        } else {
            ALL << k
        }
    }

    /// An implicit region, mostly good and mostly in or about the memory.
    fn implicit_region(&mut self, length: usize, permission: u64) -> Region {
        match self.below(16) {
            0 => Region { base: self.edge(), bound: self.edge(), permission },
            1 => {
                let k = self.pick(&[0, 1, 2, 3, 47, 48, 49, 63, 64]);
                Region { base: 0, bound: self.mask(k), permission }
            }
            2 => {
                let k = self.below(49);
                let base = (1u64 << 48).wrapping_sub(1 << k).wrapping_add(self.pick(&[0, 1, 1 << k]));
                Region { base, bound: self.mask(k), permission }
            }
            3 => {
                // a misaligned base or a mask with a hole
                let k = self.below(16) + 1;
                let base = self.below(length as u64 + 1);
                let hole = if self.once_in(2) { 1 << (k + 1 + self.below(40)) } else { 0 };
                Region { base, bound: self.mask(k) ^ hole, permission }
            }
            4 => Region { base: 0, bound: 0, permission },
            _ => {
                let most = (usize::BITS - length.leading_zeros()) as u64; // 2^most is above the length
                let k = if most == 0 { self.below(4) } else { self.below(most + 2).max(most.saturating_sub(self.below(8))) };
                let mask = self.mask(k);
                Region { base: self.below(length as u64 + 8) & mask, bound: mask, permission }
            }
        }
    }

    /// What makes a number no multiple of 65,536, now and then: any number, or
    /// one bit, so that nearly whole multiples are met.
    fn odd_part(&mut self) -> u64 {
        match self.below(16) {
            0 => self.below(65536),
            1 => 1 << self.below(16),
            _ => 0,
        }
    }

    /// The explicit region.
    fn explicit_region(&mut self, length: usize) -> Region {
        let permission = self.pick(&[3, 3, 3, 1, 2, 0, 8, 9, 10, 11, 11]);
        if permission >= 8 {
            match self.below(4) {
                0 => Region { base: self.edge(), bound: self.edge(), permission },
                1 => {
                    let base = self.below(1 << 33) & !0xffff;
                    Region { base, bound: (1 << 48) - base + self.pick(&[0, 65536]), permission }
                }
                _ => Region {
                    base: self.below(3) * 65536 + self.odd_part(),
                    bound: self.below(4) * 65536 + self.odd_part(),
                    permission,
                },
            }
        } else {
            match self.below(8) {
                0 => Region { base: self.edge(), bound: self.edge(), permission },
                1 => {
                    let multiple = self.below(1 << 16) << 32;
                    let below = self.below(4096);
                    Region { base: multiple.wrapping_sub(below), bound: below + self.below(3), permission }
                }
                2 => Region {
                    base: (1u64 << 48).wrapping_sub(self.below(4)),
                    bound: self.below(6),
                    permission,
                },
                _ => {
                    let base = self.below(length as u64 + 8);
                    let bound = match self.below(4) {
                        0 => self.below(17),
                        1 => (length as u64).saturating_sub(base) + self.below(9),
                        _ => self.below(4200),
                    };
                    Region { base, bound, permission }
                }
            }
        }
    }

    /// The number of some region of a kind, mostly the first; before Job 7 the only one.
    fn number_of(&mut self, kind: RegionKind) -> usize {
        let numbers = numbers_of_kind(kind);
        if self.ten && self.once_in(2) {
            self.pick(numbers)
        } else {
            numbers[0]
        }
    }

    /// Regions 4 to 10: many go by an earlier one of their kind, so that they
    /// have bytes in common or touch; some are zero.
    fn later_regions(&mut self, machine: &mut Machine, length: usize) {
        for number in 4..=REGIONS {
            let kind = region_kind(number);
            let earlier: Vec<usize> = numbers_of_kind(kind).iter().copied().filter(|other| *other < number).collect();
            let model = machine.regions[self.pick(&earlier) - 1];
            machine.regions[number - 1] = match (self.below(6), kind) {
                (0, _) => Region::default(),
                (1 | 2, RegionKind::Explicit) => Region { permission: self.pick(&[3, 1, 2]), ..model },
                (_, RegionKind::Explicit) => self.explicit_region(length),
                (1 | 2 | 3, RegionKind::ImplicitData) => Region { permission: self.below(4), ..self.beside(model) },
                (1 | 2 | 3, RegionKind::ImplicitCode) => Region { permission: self.pick(&[4, 4, 0]), ..self.beside(model) },
                (_, RegionKind::ImplicitData) => {
                    let permission = self.pick(&[3, 3, 1, 2, 0]);
                    self.implicit_region(length, permission)
                }
                (_, RegionKind::ImplicitCode) => self.implicit_region(length, 4),
            };
        }
    }

    /// An implicit region with the bytes of another, some of them, more than
    /// them, or beside it.
    fn beside(&mut self, other: Region) -> Region {
        let k = other.bound.trailing_zeros() as u64;
        if k > 48 {
            return other;
        }
        let size = 1u64 << k;
        let (base, k) = match self.below(6) {
            0 => (other.base, k),
            1 | 2 => (other.base.wrapping_add(self.below(size)), self.below(k + 1)),
            3 => (other.base, k + 1 + self.below(3)),
            4 => (other.base.wrapping_add(size), self.below(k + 1)),
            _ => (other.base.wrapping_sub(1), self.below(k + 1)),
        };
        let bound = self.mask(k);
        Region { base: base & bound, bound, permission: 0 }
    }

    /// Any machine: mostly well formed, mostly in HFI mode.
    pub fn machine(&mut self, length: usize) -> Machine {
        let mut machine = Machine::default();
        machine.regions[0] = self.explicit_region(length);
        let permission = self.pick(&[3, 3, 3, 1, 2, 0]);
        machine.regions[1] = self.implicit_region(length, permission);
        let permission = self.pick(&[4, 4, 4, 4, 4, 4, 4, 0]);
        machine.regions[2] = self.implicit_region(length, permission);
        if self.ten && !self.once_in(4) {
            self.later_regions(&mut machine, length);
        }
        machine.mode = if self.once_in(4) { 0 } else { 1 };
        machine.options = self.below(16);
        self.part_if_locked(&mut machine);
        machine.reason = self.below(3);
        machine.exit_pc = self.edge();
        machine.handler = self.edge() & 0x3fff_ffff_ffff_fffc;
        machine.selector = self.region_number();
        if self.once_in(2) {
            machine.fault =
                Fault { occurred: self.below(2), region: self.region_number(), op: self.below(4), address: self.edge() };
        }
        // Registers: edges, and places about the regions and the memory's end.
        for n in 1..32 {
            machine.x[n] = self.pointer(&machine, length);
        }
        machine.pc = self.place_of_code(&machine, length);
        if self.once_in(16) {
            self.spoil(&mut machine);
        }
        machine
    }

    /// A pc: mostly in a code region, if that is in memory.
    fn place_of_code(&mut self, machine: &Machine, length: usize) -> u64 {
        let region = machine.regions[self.number_of(RegionKind::ImplicitCode) - 1];
        let low = if self.halves && self.once_in(2) { 1 } else { 3 };
        match self.below(16) {
            0 => self.edge(),
            1 => self.edge() & !low,
            2 => (length as u64).wrapping_sub(self.below(12)),
            3 => region.base.wrapping_add(self.below(64) * 4),
            _ => {
                let inside = if length == 0 { 0 } else { self.below(length as u64) };
                if machine.mode == 1 && region.bound != 0 && region.base < length as u64 {
                    region.base.wrapping_add(inside & !region.bound) & !low
                } else {
                    inside & !low
                }
            }
        }
    }

    pub fn well_formed_machine(&mut self, length: usize) -> Machine {
        loop {
            let machine = self.machine(length);
            // Before Job 7 both went up to 3.
            let drawn = self.ten || machine.selector.max(machine.fault.region) <= 3;
            if drawn && crate::machine::well_formed(&machine) {
                return machine;
            }
        }
    }

    fn pointer(&mut self, machine: &Machine, length: usize) -> u64 {
        let near = self.below(33).wrapping_sub(16);
        match self.below(8) {
            0 => (length as u64).wrapping_add(near),
            1 | 2 => {
                let region = machine.regions[self.number_of(RegionKind::ImplicitData) - 1];
                let end = region.base.wrapping_add(region.bound.wrapping_neg());
                self.pick(&[region.base, end]).wrapping_add(near)
            }
            3 => {
                let region = machine.regions[self.number_of(RegionKind::ImplicitData) - 1];
                let size = region.bound.wrapping_neg();
                region.base.wrapping_add(if size == 0 { 0 } else { self.below(size) })
            }
            4 => self.below(length as u64 + 1),
            5 => self.below(20),
            6 => machine.regions[self.number_of(RegionKind::ImplicitCode) - 1].base.wrapping_add(self.below(64) * 4),
            _ => self.edge(),
        }
    }

    /// Breaks one condition of well formed, or sets an allowed bit.
    pub fn spoil(&mut self, machine: &mut Machine) {
        let bit = 1u64 << self.below(64);
        match self.below(11) {
            0 => machine.x[0] = bit,
            1 => machine.mode = self.below(4),
            2 => machine.reason = self.below(5),
            3 => machine.options |= self.pick(&[16, 1 << 32, bit]),
            4 => machine.handler |= self.pick(&[1, 2, 4, 1 << 61, 1 << 62, 1 << 63, bit]),
            5 => machine.selector = self.below(if self.ten { 14 } else { 6 }),
            6 => machine.fault.occurred = self.below(4),
            7 => machine.fault.region = self.below(if self.ten { 14 } else { 6 }),
            8 => machine.fault.op = self.below(6),
            n => {
                let flipped = if n == 9 { 1 << self.below(6) } else { 0 };
                let place = self.below(if self.ten { REGIONS as u64 } else { 3 }) as usize;
                let permission = &mut machine.regions[place].permission;
                *permission = if n == 9 { *permission ^ flipped } else { *permission | bit };
            }
        }
    }

    /// A length of memory: 0, 3, 64, 4,096 and others, now and then 65,536.
    pub fn length(&mut self) -> usize {
        match self.below(32) {
            0 => 0,
            1 => self.below(9) as usize,
            2 => 3,
            3 => 65_536,
            4..=9 => self.below(4200) as usize,
            10..=19 => 64 + self.below(64) as usize,
            20..=24 => 1024,
            _ => 4096,
        }
    }

    /// Memory with words at every multiple of 4 that fits, other bytes random;
    /// or with half-words and long ones one after the other.
    pub fn memory(&mut self, length: usize) -> Vec<u8> {
        let mut bytes: Vec<u8> = (0..length).map(|_| self.next() as u8).collect();
        let often = self.halves && self.once_in(2);
        let mut at = 0;
        while at + 4 <= length {
            if often && self.once_in(2) {
                bytes[at..at + 2].copy_from_slice(&self.half_word().to_le_bytes());
                at += 2;
                continue;
            }
            let word = self.word();
            bytes[at..at + 4].copy_from_slice(&word.to_le_bytes());
            at += 4;
        }
        bytes
    }

    pub fn budget(&mut self) -> u64 {
        match self.below(24) {
            0 => 0,
            1 => 1,
            2 => 1_000_001,
            3 => self.edge(),
            4 => 1_000,
            _ => self.below(200),
        }
    }

    /// A machine in locked HFI mode for the isolation experiment, well formed.
    pub fn locked_machine(&mut self, length: usize) -> Machine {
        loop {
            let mut machine = self.machine(length);
            machine.mode = 1;
            machine.options |= 1;
            if !self.once_in(16) {
                self.part(&mut machine);
            }
            if crate::machine::well_formed(&machine) {
                return machine;
            }
        }
    }

    /// A second memory that agrees on readable and executable bytes and
    /// mostly differs elsewhere.
    pub fn twin(&mut self, machine: &Machine, memory: &[u8]) -> Vec<u8> {
        let mut other = memory.to_vec();
        for (address, byte) in other.iter_mut().enumerate() {
            if !readable(machine, address as u64) && !executable(machine, address as u64) {
                *byte = self.next() as u8;
            }
        }
        other
    }

    fn digits(&mut self, value: u64) -> String {
        let plain = format!("{value:x}");
        if self.once_in(12) {
            let width = self.below(16) as usize + 1;
            format!("{value:0width$x}")
        } else {
            plain
        }
    }

    /// The machine that a valid sheet of up to `span` bytes of words sets up;
    /// one that is not wide has zero in regions 4 to 10.
    fn sheet_machine(&mut self, span: usize, steady: bool, wide: bool) -> Machine {
        let mut machine = self.machine(span);
        machine.mode = 1;
        if !wide {
            machine.regions[3..].fill(Region::default());
        }
        if !self.once_in(16) {
            machine.regions[2] = Region { base: 0, bound: ALL << 12, permission: 4 };
            machine.pc = if steady { 0 } else { self.below(span as u64 / 8) * 4 };
            if self.halves && !steady && self.once_in(2) {
                machine.pc += 2;
            }
        }
        if steady {
            // Registers start at 0: the first words set the pointers.
            for number in EXPLICIT.into_iter().filter(|number| wide || *number == 1) {
                machine.regions[number - 1] = Region { base: self.below(64) * 8, bound: self.pick(&[2100, 4200, 6000]), permission: 3 };
            }
            if !self.once_in(4) {
                let k = if self.once_in(4) { 3 + self.below(14) } else { 13 };
                machine.regions[1] = Region { base: 0, bound: ALL << k, permission: self.pick(&[1, 3, 3]) };
            }
        }
        if !locked_code_is_writable(&machine) || self.once_in(8) {
            return machine;
        }
        if steady && span < SHEET_DATA as usize {
            // Code below 400, ordinary data 400 to 7ff, the explicit region above.
            machine.regions[2] = Region { base: 0, bound: ALL << 10, permission: 4 };
            machine.regions[1] = Region { base: SHEET_DATA, bound: ALL << 10, permission: 3 };
            EXPLICIT.iter().for_each(|number| machine.regions[number - 1].base += 2 * SHEET_DATA);
            if locked_code_is_writable(&machine) {
                self.part(&mut machine);
            }
        } else {
            self.part(&mut machine);
        }
        machine
    }

    /// A valid sheet.
    pub fn valid_sheet(&mut self) -> Vec<u8> {
        let span = self.pick(&[64usize, 256, 256, 4096]);
        let steady = !self.once_in(4);
        let wide = self.once_in(2);
        let mut machine = self.sheet_machine(span, steady, wide);
        machine.options &= 0xff;
        let (first, room) = if machine.regions[1].base == SHEET_DATA { (SHEET_DATA + 48, SHEET_DATA - 96) } else { (48, 1900) };
        let mut fields = vec![machine.pc, machine.options, machine.handler];
        for region in &machine.regions[..if wide { REGIONS } else { 3 }] {
            fields.extend([region.base, region.bound, region.permission & 0xff]);
        }
        let mut text = String::new();
        for field in fields {
            text.push_str(&self.digits(field));
            text.push(',');
        }
        match self.below(12) {
            0 if self.once_in(2) => {} // not often, as it may take 50,000 steps
            1 if self.once_in(8) => text.push_str("f4240"),
            2 if self.once_in(4) => text.push_str("f4241"),
            3 if self.once_in(4) => text.push_str("ffffffff"),
            4 if self.once_in(4) => text.push('0'),
            _ => {
                let budget = self.below(600);
                text.push_str(&self.digits(budget));
            }
        }
        text.push('\n');
        let mut address = 0;
        let lines = if self.once_in(8) { self.below(span as u64 / 4) } else { span as u64 / 4 };
        for line in 0..lines {
            let word = if steady && line < 4 {
                let (rd, value) = ([1, 2, 8, 3][line as usize], if line == 3 { 0 } else { (first + self.below(room)) as i64 });
                encode(&Instruction::Immediate { kind: ImmediateKind::Addi, rd, rs1: 0, value }).expect("in range")
            } else if steady && line == 4 {
                encode(&Instruction::Upper { kind: UpperKind::Lui, rd: OFFSETS[0], field: 1 }).expect("in range")
            } else if self.halves && self.once_in(4) {
                let mut pair = [0; 4];
                self.put_halves(&mut pair, 0);
                u32::from_le_bytes(pair)
            } else if steady && !self.once_in(60) {
                let mut instruction = self.steady_instruction();
                if let Instruction::HLoad { rs1, region, .. } | Instruction::HStore { rs1, region, .. } = &mut instruction {
                    // An offset that the first words have set, or any.
                    if !self.once_in(12) {
                        *rs1 = self.pick(&[0, 1, 2, 8, OFFSETS[0]]);
                    }
                    if !wide && !self.once_in(12) {
                        *region = 1;
                    }
                }
                encode(&instruction).expect("in range")
            } else {
                self.word()
            };
            text.push_str(&self.digits(address));
            text.push(',');
            text.push_str(&self.digits(word as u64));
            text.push('\n');
            address += 4 * if self.once_in(if steady { 200 } else { 16 }) { 1 + self.below(8) } else { 1 };
            if self.once_in(200) {
                address = 0xfffc;
            }
            if address > 0xfffc {
                break;
            }
        }
        text.into_bytes()
    }

    /// A sheet with one to three damages; it may be valid still.
    pub fn damaged_sheet(&mut self) -> Vec<u8> {
        let bytes = self.valid_sheet();
        self.damaged(bytes)
    }

    /// A sheet after one to three damages.
    pub fn damaged(&mut self, mut bytes: Vec<u8>) -> Vec<u8> {
        for _ in 0..1 + self.below(3) {
            if bytes.is_empty() {
                break;
            }
            let at = self.below(bytes.len() as u64) as usize;
            match self.below(12) {
                0 => bytes[at] = self.next() as u8,
                1 => bytes[at] = self.pick(b"0123456789abcdef,\ngAF \r/:`"),
                2 => {
                    bytes.remove(at);
                }
                3 => bytes.insert(at, self.pick(b"0123456789abcdef,,\n\n")),
                4 => bytes.truncate(at),
                5 => {
                    // a copy of a stretch, so that addresses fall or lines repeat
                    let end = (at + 40).min(bytes.len());
                    let part = bytes[at..end].to_vec();
                    let to = self.below(bytes.len() as u64) as usize;
                    bytes.splice(to..to, part);
                }
                6 => {
                    // a wide field
                    let zeros = vec![b'0'; self.below(18) as usize];
                    bytes.splice(at..at, zeros);
                }
                7 => {
                    // a large number
                    let digits = self.pick(&["100", "100000000", "10000", "2", "fffc", "ff", "3ffffffffffffffc"]);
                    bytes.splice(at..at, digits.bytes());
                }
                8 => {
                    bytes.pop();
                }
                9 => bytes.extend(b"\n"),
                10 => {
                    // swap two lines
                    let mut lines: Vec<Vec<u8>> = bytes.split(|b| *b == b'\n').map(|l| l.to_vec()).collect();
                    let (i, j) = (self.below(lines.len() as u64) as usize, self.below(lines.len() as u64) as usize);
                    lines.swap(i, j);
                    bytes = lines.join(&b'\n');
                }
                _ => {
                    // about the longest length
                    if self.once_in(4) {
                        let target = 65_530 + self.below(12) as usize;
                        while bytes.len() < target {
                            bytes.insert(bytes.len() - 1, b'\n');
                        }
                    }
                }
            }
        }
        bytes
    }

    /// The digits of a value with zeros before them, up to a width of `widest`.
    fn wide(&mut self, value: u64, widest: u64) -> String {
        let width = 1 + self.below(widest) as usize;
        format!("{value:0width$x}")
    }

    /// The lines of a valid sheet, without their ends: so many words, or as many as there is room for with 2 bytes left, in
    /// fields of up to `widest` digits where fewer would do. Its program goes over all of memory, so that every word counts
    /// in its place. Where `widest` is 1 words have one digit, and half of the time there is no program: then no sheet has
    /// more words.
    pub fn long_lines(&mut self, words: usize, widest: u64) -> Vec<Vec<u8>> {
        let runs = widest > 1 || self.once_in(2);
        // One digit a field leaves room for most words where there are 13.
        let mut setup = vec![0; if widest > 1 && self.once_in(2) { 34 } else { 13 }];
        if runs {
            setup[1] = self.below(16);
            setup[2] = self.below(0x4000) * 4;
            setup[7..9].copy_from_slice(&[ALL << 16, self.pick(&[1, 3])]);
            setup[10..12].copy_from_slice(&[ALL << 16, 4]);
            *setup.last_mut().unwrap() = if self.once_in(2) { 100_000 } else { self.below(100_000) };
        }
        let program = if runs { over_memory() } else { Vec::new() };
        let gaps = widest > 1 && self.once_in(2);
        let first: Vec<String> = setup.into_iter().map(|value| self.wide(value, widest)).collect();
        let mut lines = vec![first.join(",").into_bytes()];
        let mut length = lines[0].len() + 1;
        let mut address = 0;
        while lines.len() <= words && address <= 0xfffc {
            let word = match program.get(lines.len() - 1) {
                Some(word) => *word as u64,
                None => self.next() >> if widest == 1 { 60 } else { 32 + self.below(32) },
            };
            let line = format!("{},{}", self.wide(address, widest), self.wide(word, widest));
            length += line.len() + 1;
            if length > SHEET_LIMIT - 2 {
                break;
            }
            lines.push(line.into_bytes());
            address += if gaps && lines.len() > program.len() && self.once_in(40) { 4 + self.below(8) * 4 } else { 4 };
        }
        lines
    }

    /// A word that neither jumps nor stops where x1, x2 and x8 are those of `lasting_lines`, and writes to none of them.
    fn harmless(&mut self, wide: bool) -> Instruction {
        loop {
            let rs1 = self.pick(&[0, 1, 2, 8]);
            match self.steady_instruction() {
                Instruction::Jal { .. } | Instruction::Jalr { .. } | Instruction::Branch { .. } => {}
                Instruction::System { .. } | Instruction::Hfi { .. } => {}
                Instruction::HLoad { kind, region, rd, offset, .. } => {
                    let region = if wide { region } else { 1 };
                    return Instruction::HLoad { kind, region, rd, rs1, offset };
                }
                Instruction::HStore { kind, region, rs2, offset, .. } => {
                    let region = if wide { region } else { 1 };
                    return Instruction::HStore { kind, region, rs1, rs2, offset };
                }
                other => return other,
            }
        }
    }

    /// A program that completes so many steps, 20 or more, and then comes to the word after its last: a loop of up to seven
    /// words, then as many words as are left over.
    fn lasting_program(&mut self, steps: u64, wide: bool) -> Vec<Instruction> {
        let lui = |rd, field| Instruction::Upper { kind: UpperKind::Lui, rd, field };
        let addi = |rs1, value| Instruction::Immediate { kind: ImmediateKind::Addi, rd: ROUNDS, rs1, value };
        let inside = self.below(6);
        let (rounds, rest) = ((steps - 5) / (inside + 2), (steps - 5) % (inside + 2));
        let upper = (rounds + 0x800) >> 12;
        let lower = rounds as i64 - (upper << 12) as i64;
        let mut program = vec![lui(1, 5), lui(2, 6), lui(8, 7), lui(ROUNDS, upper), addi(ROUNDS, lower)];
        program.extend((0..inside).map(|_| self.harmless(wide)));
        program.push(addi(ROUNDS, -1));
        program.push(Instruction::Branch { kind: BranchKind::Bne, rs1: ROUNDS, rs2: 0, offset: -4 * (inside as i64 + 1) });
        program.extend((0..rest).map(|_| self.harmless(wide)));
        program
    }

    /// The lines of a valid sheet with an empty budget, without their ends, whose program completes so many steps, 20 or
    /// more, and then comes to a word that leaves or to one that stops; and the number which that word gives.
    pub fn lasting_lines(&mut self, steps: u64, leaves: bool) -> (Vec<Vec<u8>>, u64) {
        const ECALL: u64 = 0x73;
        let (stop, last) = match leaves {
            true => (20, self.pick(&[ECALL, 0x0400_005b])),
            false => self.pick(&[(13, 0), (18, ECALL), (19, 0x0010_0073)]),
        };
        let (mut options, handler) = (self.below(16), self.below(0x4000) * 4);
        if last == ECALL {
            options = options & !2 | 2 * leaves as u64;
        }
        // Code below 1000, ordinary data 4000 to 7fff, the explicit region above; or all four of them there, and ordinary
        // data in regions 7 and 2.
        let mut setup = vec![0, options, handler, 0x8000, 0x8000, 3, 0x4000, ALL << 14, 3, 0, ALL << 12, 4];
        let wide = self.once_in(2);
        if wide {
            setup[6..8].copy_from_slice(&[0x5000, ALL << 12]);
            setup.extend([0x8000, 0x8000, 3].repeat(3));
            setup.extend([0x4000, ALL << 14, 3, 0x4000, ALL << 14, 0, 0, 0, 0, 0, ALL << 12, 0]);
        }
        let first: Vec<String> = setup.into_iter().map(|value| self.digits(value)).collect();
        let mut lines = vec![(first.join(",") + ",").into_bytes()];
        let program = self.lasting_program(steps, wide);
        let words = program.iter().map(|instruction| encode(instruction).expect("in range") as u64).chain([last]);
        for (n, word) in words.enumerate() {
            lines.push(format!("{},{}", self.digits(4 * n as u64), self.digits(word)).into_bytes());
        }
        (lines, stop)
    }

    /// Changes line k of `long_lines` so that this question refuses it, in one of up to three ways for which there is room.
    /// Not for 35 in lines 1 and 2.
    pub fn plant(&mut self, lines: &mut [Vec<u8>], question: u64, k: usize) {
        let room = SHEET_LIMIT - sheet_of(lines).len();
        let mut fields: Vec<Vec<u8>> = lines[k - 1].split(|byte| *byte == b',').map(|field| field.to_vec()).collect();
        let budget = fields.len() - 1;
        let place = self.below(if k == 1 { budget as u64 } else { 2 }) as usize; // not the budget
        let way = self.below(3);
        match question {
            31 => {
                let foreign = if way == 0 { self.foreign() } else { self.pick(b"gAFX \r\t/:`-\0\x0b\x8a\xac\xb0\xff") };
                let last = lines[k - 1].len() - 1;
                let at = self.below(last as u64 + 1) as usize;
                lines[k - 1][self.pick(&[0, at, last])] = foreign;
                return;
            }
            32 if way == 0 => fields.insert(place, Vec::new()),
            32 if way == 1 => fields = vec![Vec::new()],
            32 => drop(fields.remove(place)),
            33 if way == 0 && room >= 17 => fields[place] = vec![b'0'; 17],
            33 => fields[place] = Vec::new(),
            34 if k == 1 && way == 0 && room >= 9 => fields[budget] = b"100000000".to_vec(),
            34 if k == 1 => {
                let permission = 5 + 3 * self.below((budget as u64 - 3) / 3) as usize;
                fields[self.pick(&[1, permission, permission, permission])] = b"100".to_vec();
            }
            34 if way == 0 && room >= 9 => fields[1] = b"100000000".to_vec(),
            34 if way == 1 && room >= 5 => fields[0] = b"10000".to_vec(),
            34 => {
                // 1 to 3 more than a multiple of 4 changes the last digit only
                let value = address_of(&lines[k - 1]) + 1 + self.below(3);
                fields[0] = format!("{value:0width$x}", width = fields[0].len()).into_bytes();
            }
            _ => {
                let before = address_of(&lines[k - 2]);
                let value = if way == 0 { self.below(before / 4 + 1) * 4 } else { before };
                fields[0] = format!("{value:0width$x}", width = fields[0].len()).into_bytes();
            }
        }
        lines[k - 1] = fields.join(&b',');
    }

    /// A byte that no sheet may have.
    fn foreign(&mut self) -> u8 {
        loop {
            let byte = self.next() as u8;
            if !b"0123456789abcdef,\n".contains(&byte) {
                return byte;
            }
        }
    }
}

/// The sheet of these lines.
pub fn sheet_of(lines: &[Vec<u8>]) -> Vec<u8> {
    let mut bytes = lines.join(&b'\n');
    bytes.push(b'\n');
    bytes
}

/// The sheet with c350 written in place of an empty budget: the last of 13 or 34 fields of line 1. None if it is not empty
/// or if there is no room.
pub fn written_out(sheet: &[u8]) -> Option<Vec<u8>> {
    let end = sheet.iter().position(|byte| *byte == b'\n')?;
    let commas = sheet[..end].iter().filter(|byte| **byte == b',').count();
    let empty = (commas == 12 || commas == 33) && sheet[end - 1] == b',';
    (empty && sheet.len() + 4 <= SHEET_LIMIT).then(|| [&sheet[..end], b"c350", &sheet[end..]].concat())
}

/// The address of a word line.
fn address_of(line: &[u8]) -> u64 {
    let digits: Vec<u8> = line.iter().copied().take_while(|byte| *byte != b',').collect();
    u64::from_str_radix(std::str::from_utf8(&digits).unwrap(), 16).unwrap()
}

/// A program that goes over the 16,384 words of a sheet's memory: x10 becomes 33 times itself plus the word.
fn over_memory() -> Vec<u32> {
    let add = |rs2| Instruction::Register { kind: RegisterKind::Add, rd: 10, rs1: 10, rs2 };
    let program = [
        Instruction::Upper { kind: UpperKind::Lui, rd: 6, field: 0x10 },
        Instruction::Load { kind: LoadKind::WordUnsigned, rd: 7, rs1: 5, offset: 0 },
        Instruction::Shift { kind: ShiftKind::Slli, rd: 11, rs1: 10, amount: 5 },
        add(11),
        add(7),
        Instruction::Immediate { kind: ImmediateKind::Addi, rd: 5, rs1: 5, value: 4 },
        Instruction::Branch { kind: BranchKind::Bne, rs1: 5, rs2: 6, offset: -20 },
        Instruction::System { kind: SystemKind::Ecall },
    ];
    program.iter().map(|instruction| encode(instruction).expect("in range")).collect()
}

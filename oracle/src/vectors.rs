//! Checks against stored vectors: the published ones and our value cases.

use crate::half_words::expand;
use crate::instruction::{decode, encode, BranchKind, Instruction, LoadKind, StoreKind, SystemKind};
use crate::machine::Machine;
use crate::run::run;

#[derive(Default)]
pub struct Report {
    pub passed: usize,
    pub failed: usize,
    pub lines: Vec<String>,
}

impl Report {
    fn note(&mut self, good: bool, text: String) {
        if good {
            self.passed += 1;
        } else {
            self.failed += 1;
            self.lines.push(text);
        }
    }
}

const ABI: [&str; 32] = [
    "zero", "ra", "sp", "gp", "tp", "t0", "t1", "t2", "s0", "s1", "a0", "a1", "a2", "a3", "a4", "a5", "a6", "a7",
    "s2", "s3", "s4", "s5", "s6", "s7", "s8", "s9", "s10", "s11", "t3", "t4", "t5", "t6",
];

fn load_text(kind: LoadKind) -> &'static str {
    match kind {
        LoadKind::Byte => "lb",
        LoadKind::Half => "lh",
        LoadKind::Word => "lw",
        LoadKind::Double => "ld",
        LoadKind::ByteUnsigned => "lbu",
        LoadKind::HalfUnsigned => "lhu",
        LoadKind::WordUnsigned => "lwu",
    }
}

fn store_text(kind: StoreKind) -> &'static str {
    match kind {
        StoreKind::Byte => "sb",
        StoreKind::Half => "sh",
        StoreKind::Word => "sw",
        StoreKind::Double => "sd",
    }
}

fn fence_set(set: u64) -> String {
    let mut text = String::new();
    for (place, letter) in [(3, 'i'), (2, 'o'), (1, 'r'), (0, 'w')] {
        if set >> place & 1 == 1 {
            text.push(letter);
        }
    }
    text
}

/// Assembly text of an RV64I or RV64M instruction, in the form of the LLVM rows.
pub fn assembly(instruction: &Instruction) -> String {
    let r = |n: u64| ABI[n as usize];
    let lower = |kind: String| kind.to_lowercase();
    match *instruction {
        Instruction::Upper { kind, rd, field } => format!("{} {}, {}", lower(format!("{kind:?}")), r(rd), field),
        Instruction::Jal { rd, offset } => format!("jal {}, {}", r(rd), offset),
        Instruction::Jalr { rd, rs1, offset } => format!("jalr {}, {}({})", r(rd), offset, r(rs1)),
        Instruction::Branch { kind, rs1, rs2, offset } => {
            let text = match kind {
                BranchKind::Beq => "beq",
                BranchKind::Bne => "bne",
                BranchKind::Blt => "blt",
                BranchKind::Bge => "bge",
                BranchKind::Bltu => "bltu",
                BranchKind::Bgeu => "bgeu",
            };
            format!("{} {}, {}, {}", text, r(rs1), r(rs2), offset)
        }
        Instruction::Load { kind, rd, rs1, offset } => {
            format!("{} {}, {}({})", load_text(kind), r(rd), offset, r(rs1))
        }
        Instruction::Store { kind, rs1, rs2, offset } => {
            format!("{} {}, {}({})", store_text(kind), r(rs2), offset, r(rs1))
        }
        Instruction::Immediate { kind, rd, rs1, value } => {
            format!("{} {}, {}, {}", lower(format!("{kind:?}")), r(rd), r(rs1), value)
        }
        Instruction::Shift { kind, rd, rs1, amount } => {
            format!("{} {}, {}, {}", lower(format!("{kind:?}")), r(rd), r(rs1), amount)
        }
        Instruction::Register { kind, rd, rs1, rs2 } => {
            format!("{} {}, {}, {}", lower(format!("{kind:?}")), r(rd), r(rs1), r(rs2))
        }
        Instruction::Fence { spare: 0x833, .. } => "fence.tso".to_string(),
        Instruction::Fence { spare, .. } => {
            format!("fence {}, {}", fence_set(spare / 16 % 16), fence_set(spare % 16))
        }
        Instruction::System { kind: SystemKind::Ecall } => "ecall".to_string(),
        Instruction::System { kind: SystemKind::Ebreak } => "ebreak".to_string(),
        Instruction::HLoad { .. } | Instruction::HStore { .. } | Instruction::Hfi { .. } => String::new(),
    }
}

fn hex(text: &str) -> u64 {
    u64::from_str_radix(text, 16).expect(text)
}

fn byte_list(text: &str) -> Vec<u8> {
    (0..text.len() / 2).map(|i| hex(&text[2 * i..2 * i + 2]) as u8).collect()
}

/// Does the word decode to that text, and encode back?
fn spells(word: u32, text: &str) -> bool {
    decode(word).is_some_and(|instruction| encode(&instruction) == Some(word) && assembly(&instruction) == text)
}

/// The text of the instruction that a half-word's text stands for; none for `c.unimp`.
fn long_text(text: &str) -> Option<String> {
    let (name, rest) = text.strip_prefix("c.")?.split_once(' ').unwrap_or((&text[2..], ""));
    let first = rest.split(',').next().unwrap_or_default();
    Some(match name {
        "unimp" => return None,
        "nop" => "addi zero, zero, 0".to_string(),
        "ebreak" => name.to_string(),
        "addi16sp" => format!("addi sp, {rest}"),
        "addi4spn" => format!("addi {rest}"),
        "lui" | "lw" | "ld" | "sw" | "sd" => format!("{name} {rest}"),
        "lwsp" | "ldsp" | "swsp" | "sdsp" => format!("{} {rest}", &name[..2]),
        "li" => format!("addi {}", rest.replace(", ", ", zero, ")),
        "mv" => format!("add {}", rest.replace(", ", ", zero, ")),
        "beqz" | "bnez" => format!("{} {}", &name[..3], rest.replace(", ", ", zero, ")),
        "j" => format!("jal zero, {rest}"),
        "jr" => format!("jalr zero, 0({rest})"),
        "jalr" => format!("jalr ra, 0({rest})"),
        _ => format!("{name} {first}, {rest}"),
    })
}

/// Does a half-word stand for what its text says? It is no long word, whatever
/// stands above it.
fn half_spells(half: u32, text: &str) -> bool {
    let short = [0u32, 0xffff, 0x0013, half].iter().all(|upper| decode(half + upper * 65536).is_none());
    short && expand(half as u16).map(|instruction| assembly(&instruction)) == long_text(text)
}

/// LLVM rows: file, assembly text, bytes. RV64I and RV64M rows decode to that
/// text and encode back, half-words expand to what theirs stands for; CSR words
/// and FENCE.I are illegal.
pub fn check_llvm(text: &str) -> Report {
    let mut report = Report::default();
    let (mut legal, mut illegal, mut halves) = (0, 0, 0);
    for row in text.lines() {
        let fields: Vec<&str> = row.split('\t').collect();
        let bytes = byte_list(fields[2]);
        if bytes.len() == 2 {
            let half = bytes[0] as u32 + bytes[1] as u32 * 256;
            report.note(half_spells(half, fields[1]), format!("{row}: {:?}", expand(half as u16)));
            halves += 1;
            continue;
        }
        let word = u32::from_le_bytes([bytes[0], bytes[1], bytes[2], bytes[3]]);
        if fields[1].starts_with("csr") || fields[1] == "fence.i" || fields[1] == "unimp" {
            report.note(decode(word).is_none(), format!("passes: {row}"));
            illegal += 1;
        } else {
            report.note(spells(word, fields[1]), format!("{row}: {:?}", decode(word)));
            legal += 1;
        }
    }
    report.lines.push(format!("{legal} long words legal, {illegal} illegal, {halves} half-words"));
    report
}

/// llvm.columns: word, the codec's number (00 or 13), text, origin; 48 bytes a
/// line. A half-word is 13 there (reading A66).
pub fn check_llvm_columns(text: &str) -> Report {
    let mut report = Report::default();
    for line in text.lines() {
        let word = hex(&line[0..8]) as u32;
        let good = match &line[9..11] {
            "00" => spells(word, line[12..36].trim_end()),
            _ if word < 65536 => half_spells(word, line[12..36].trim_end()),
            _ => decode(word).is_none(),
        };
        report.note(good, format!("{line}: {:?}", decode(word)));
    }
    report
}

fn assignments(text: &str) -> Vec<(usize, u64)> {
    text.split(',')
        .filter(|part| !part.is_empty())
        .map(|part| {
            let (register, value) = part.split_once('=').unwrap();
            (register[1..].parse().unwrap(), hex(value))
        })
        .collect()
}

/// One of Dart's tests: its code, where that stands and returns to, and the
/// registers before.
struct Dart {
    code: Vec<u8>,
    pc: u64,
    after: u64,
    before: Vec<(usize, u64)>,
}

impl Dart {
    /// The stop and the machine of a run outside HFI mode in 2 MiB. An ECALL at
    /// the return address ends it with 18.
    fn end(&self, run: &mut Run) -> (u64, Machine) {
        let mut memory = vec![0u8; 0x20_0000];
        let (pc, after) = (self.pc as usize, self.after as usize);
        memory[pc..pc + self.code.len()].copy_from_slice(&self.code);
        memory[after..after + 4].copy_from_slice(&0x0000_0073u32.to_le_bytes());
        let mut machine = Machine { pc: self.pc, ..Machine::default() };
        for (register, value) in &self.before {
            machine.x[*register] = *value;
        }
        let (stop, _, _) = run(&mut machine, &mut memory, 1000);
        (stop, machine)
    }
}

/// Dart rows by the extension that they need: those of Zcb stop with 13, all
/// others have the result told.
pub fn check_dart(text: &str) -> Report {
    let mut report = Report::default();
    let (mut plain, mut beyond) = (0, 0);
    for row in text.lines() {
        let fields: Vec<&str> = row.split('\t').collect();
        let (pc, after) = (hex(fields[3]), hex(fields[6]));
        let case = Dart { code: byte_list(fields[2]), pc, after, before: assignments(fields[4]) };
        let (stop, machine) = case.end(&mut run);
        let values = assignments(fields[7]).iter().all(|(register, value)| machine.x[*register] == *value);
        let good = match dart_stop(fields[1]) {
            18 => stop == 18 && machine.pc == after && values,
            told => stop == told,
        };
        report.note(good, format!("{row}: stop {stop} pc {:x} x10 {:x}", machine.pc, machine.x[10]));
        *if dart_stop(fields[1]) == 18 { &mut plain } else { &mut beyond } += 1;
    }
    report.lines.push(format!("{plain} rows of RV64I, RV64M and RV64C, {beyond} rows beyond"));
    report
}

/// How a row that needs this extension ends.
fn dart_stop(extension: &str) -> u64 {
    if extension == "Zcb" {
        13
    } else {
        18
    }
}

/// dart-rv64i.columns and its fellows, dart-beyond.columns too, 289 bytes a
/// line (`crates/values/data/README.md`): the stop by the extension that the row
/// needs, and for 18 the result.
pub fn check_dart_columns(text: &str, run: &mut Run) -> Report {
    let mut report = Report::default();
    for line in text.lines() {
        let sixteen = |at: usize| hex(&line[at..at + 16]);
        let words = (0..18).map(|n| hex(&line[144 + 8 * n..152 + 8 * n]) as u32);
        let case = Dart {
            code: words.flat_map(|word| word.to_le_bytes()).collect(),
            pc: 0x10_0000,
            after: 0x18_0000,
            before: vec![(1, 0x18_0000), (2, 0x1f_0000), (10, sixteen(80)), (11, sixteen(96)), (12, sixteen(112))],
        };
        let (stop, machine) = case.end(run);
        let told = dart_stop(line[64..68].trim_end());
        let good = stop == told && (stop != 18 || machine.pc == case.after && machine.x[10] == sixteen(128));
        report.note(good, format!("{}: stop {stop} pc {:x} x10 {:x}", line[0..64].trim_end(), machine.pc, machine.x[10]));
    }
    report
}

/// The table of RV64M: each word of `words` (OP x10, x5, x6, and its name) with
/// each pair of `operands`; `results` has a line for each word and x5, and in
/// it x10 for each x6.
pub fn check_table(operands: &str, words: &str, results: &str, run: &mut Run) -> Report {
    let mut report = Report::default();
    let operands: Vec<u64> = operands.lines().map(hex).collect();
    let mut lines = results.lines();
    for row in words.lines() {
        let (word, name) = (hex(&row[0..8]) as u32, row[9..16].trim_end());
        report.note(spells(word, &format!("{name} a0, t0, t1")), format!("{row}: {:?}", decode(word)));
        for x5 in &operands {
            let told: Vec<u64> = lines.next().expect("a line of results").split(' ').map(hex).collect();
            assert_eq!(told.len(), operands.len(), "results in a line");
            for (x6, x10) in operands.iter().zip(told) {
                let mut machine = Machine::default();
                (machine.x[5], machine.x[6]) = (*x5, *x6);
                let mut left = Machine { pc: 4, ..machine };
                left.x[10] = x10;
                let answer = run(&mut machine, &mut word.to_le_bytes(), 1);
                let good = answer == (21, 1, 0) && machine == left;
                report.note(good, format!("{name} of {x5:x}, {x6:x}: {answer:?} x10 {:x}, not {x10:x}", machine.x[10]));
            }
        }
    }
    report.note(lines.next().is_none(), "a line of results too many".to_string());
    report
}

pub const CODE: u64 = 0x1000;
pub const DATA: u64 = 0x2000;
pub const RECORD: usize = 256;

/// One fixed-column record; `crates/values/data/README.md` has the offsets.
pub struct Record {
    pub name: String,
    pub before: [u64; 4],
    pub data_before: u64,
    pub after: [u64; 4],
    pub data_after: u64,
    pub final_pc: u64,
    pub steps: u64,
    pub code: [u32; 5],
}

pub const REGISTERS: [usize; 4] = [5, 6, 7, 10];

pub fn read_record(line: &str) -> Record {
    let sixteen = |at: usize| hex(&line[at..at + 16]);
    let eight = |at: usize| hex(&line[at..at + 8]);
    Record {
        name: line[0..31].trim_end().to_string(),
        before: [sixteen(32), sixteen(48), sixteen(64), sixteen(80)],
        data_before: sixteen(96),
        after: [sixteen(112), sixteen(128), sixteen(144), sixteen(160)],
        data_after: sixteen(176),
        final_pc: eight(192),
        steps: eight(200),
        code: [208, 216, 224, 232, 240].map(|at| eight(at) as u32),
    }
}

/// A run call: machine, memory, budget; stop, count, address.
pub type Run<'a> = dyn FnMut(&mut Machine, &mut [u8], u64) -> (u64, u64, u64) + 'a;

/// The fixed-column value cases, run by the oracle.
pub fn check_columns(text: &str) -> Report {
    check_columns_with(text, &mut run)
}

/// The fixed-column value cases, run by a given run call.
pub fn check_columns_with(text: &str, run: &mut Run) -> Report {
    let mut report = Report::default();
    report.note(text.len() % RECORD == 0, "length is no multiple of 256".to_string());
    for line in text.lines() {
        if line.len() != RECORD - 1 {
            report.note(false, format!("length {}: {line}", line.len()));
            continue;
        }
        let record = read_record(line);
        let mut memory = vec![0u8; 65_536];
        for (i, word) in record.code.iter().enumerate() {
            let at = CODE as usize + 4 * i;
            memory[at..at + 4].copy_from_slice(&word.to_le_bytes());
        }
        let at = DATA as usize;
        memory[at..at + 8].copy_from_slice(&record.data_before.to_le_bytes());
        let mut machine = Machine { pc: CODE, ..Machine::default() };
        for (place, register) in REGISTERS.iter().enumerate() {
            machine.x[*register] = record.before[place];
        }
        let before = memory.clone();
        let (stop, count, _) = run(&mut machine, &mut memory, record.steps);
        let values = (0..4).all(|place| machine.x[REGISTERS[place]] == record.after[place]);
        let data = u64::from_le_bytes(memory[at..at + 8].try_into().unwrap());
        let elsewhere = memory[..at] == before[..at] && memory[at + 8..] == before[at + 8..];
        let others = (0..32).all(|n| REGISTERS.contains(&n) || machine.x[n] == 0);
        let good = stop == 21
            && count == record.steps
            && values
            && data == record.data_after
            && machine.pc == record.final_pc
            && elsewhere
            && others;
        report.note(
            good,
            format!(
                "{}: stop {stop} count {count} pc {:x} x5 {:x} x6 {:x} x7 {:x} x10 {:x} data {data:x}",
                record.name, machine.pc, machine.x[5], machine.x[6], machine.x[7], machine.x[10]
            ),
        );
    }
    report
}

/// words.columns: a word and whether it is legal RV64I or RV64M, 16 bytes a line.
pub fn check_words(text: &str) -> Report {
    let mut report = Report::default();
    for line in text.lines() {
        let word = hex(&line[0..8]) as u32;
        let legal = &line[9..10] == "1";
        report.note(decode(word).is_some() == legal, format!("{line}: {:?}", decode(word)));
    }
    report
}

//! compare ENGINE SEED ROUNDS [THREADS [first]]: an engine against the oracle; with `first` no further part once one has
//! found a difference.
//! compare words [THREADS]: the proved library's codec against the oracle's, over all 2^32 words.
//!
//! ENGINE is `oracle` (against itself), `plain` (the C interpreter of bench/, with `--features plain`) or `proved` (the
//! proved static library, with `--features proved`). Ends with 1 if there is a difference.

use oracle::apart::APART_ROUNDS;
use oracle::compare::{
    compare_step, empty_budgets_unmet, fields_unmet, h_words_unmet, long_memories, long_sheets_unmet, print_counts, rounds, Counts, Engine,
    Oracle, EMPTY_TURNS, H_ROUNDS,
};
use oracle::fetches::every_half_word;
use oracle::sheet::{print_result, read_sheet, sheet_memory};
use oracle::turns::TURN_ROUNDS;
use oracle::Machine;

#[cfg(feature = "plain")]
mod plain {
    use oracle::compare::Foreign;
    use oracle::Machine;

    #[link(name = "plain", kind = "static")]
    extern "C" {
        fn plain_step(machine: *mut Machine, memory: *mut u8, length: usize, answer: *mut u64);
        fn plain_run(machine: *mut Machine, memory: *mut u8, length: usize, budget: u64, answer: *mut u64);
    }

    pub fn engine() -> Foreign {
        Foreign { title: "plain", step: Some(plain_step), run: Some(plain_run), ..Foreign::default() }
    }
}

fn engine(title: &str) -> Box<dyn Engine> {
    match title {
        "oracle" => Box::new(Oracle),
        #[cfg(feature = "plain")]
        "plain" => Box::new(plain::engine()),
        #[cfg(feature = "proved")]
        "proved" => Box::new(oracle::proved::Proved),
        _ => {
            eprintln!("no engine {title} in this build");
            std::process::exit(2);
        }
    }
}

fn main() {
    let arguments: Vec<String> = std::env::args().collect();
    let title = arguments.get(1).map(|s| s.as_str()).unwrap_or("oracle");
    let number = |place: usize, default: u64| arguments.get(place).map(|s| s.parse().expect("a number")).unwrap_or(default);
    let mut counts = Counts::default();
    if title == "words" {
        words(number(2, 2), &mut counts);
    } else {
        let (seed, many, threads) = (number(2, 1), number(3, 200), number(4, 1));
        let under_test = engine(title);
        let first = arguments.get(5).is_some_and(|word| word == "first");
        stored(under_test.as_ref(), &mut counts);
        found(first, &counts);
        every_half_word(&Oracle, under_test.as_ref(), seed, &mut counts);
        found(first, &counts);
        let each = |thread: u64| {
            let mut counts = Counts::default();
            let under_test = engine(title);
            rounds(&Oracle, under_test.as_ref(), seed + 1000 * thread, many / threads, &mut counts);
            counts
        };
        std::thread::scope(|scope| {
            let each = &each;
            let all: Vec<_> = (0..threads).map(|thread| scope.spawn(move || each(thread))).collect();
            for one in all {
                counts.add(one.join().unwrap());
            }
        });
        long_memories(&Oracle, under_test.as_ref(), seed, &mut counts);
        unmet(&counts, many / threads).into_iter().for_each(|text| counts.difference(text));
        print_counts(&counts);
    }
    for difference in counts.differences.iter().take(if title == "words" { 20 } else { 0 }) {
        println!("DIFFERENCE {difference}");
    }
    if !counts.differences.is_empty() {
        std::process::exit(1);
    }
}

/// What should have been met in so many rounds and was not.
fn unmet(counts: &Counts, rounds: u64) -> Vec<String> {
    let mut unmet = Vec::new();
    if rounds >= H_ROUNDS {
        unmet.extend([h_words_unmet(counts), oracle::m_words::unmet(&counts.m_words)].concat());
        unmet.extend(oracle::writable_code::unmet(&counts.code_classes, &counts.code_numbers));
        unmet.extend([oracle::hfi_rules::unmet(&counts.rules), oracle::ten_regions::unmet(&counts.ten_regions)].concat());
        unmet.extend([oracle::fetches::unmet(&counts.fetches), fields_unmet(counts), long_sheets_unmet(counts)].concat());
    }
    if rounds >= EMPTY_TURNS {
        unmet.extend(empty_budgets_unmet(counts));
    }
    if rounds >= TURN_ROUNDS {
        unmet.extend(oracle::turns::unmet(&counts.turns));
    }
    if rounds >= APART_ROUNDS {
        unmet.extend(oracle::apart::unmet(&counts.apart));
    }
    unmet
}

/// Ends with 1 if one difference is enough and there is one.
fn found(first: bool, counts: &Counts) {
    if first && !counts.differences.is_empty() {
        print_counts(counts);
        std::process::exit(1);
    }
}

#[cfg(not(feature = "proved"))]
fn words(_: u64, _: &mut Counts) {
    eprintln!("the library is not in this build");
    std::process::exit(2);
}

/// Every half-word: legal here exactly if legal there, the same instruction, and one that has a long word; the illegal ones
/// with zeros.
#[cfg(feature = "proved")]
fn half_words(counts: &mut Counts) {
    use oracle::proved::{encoded, expanded, flat, Flat};
    let mut legal = 0;
    for half in 0..=u16::MAX {
        let expected = oracle::half_words::expand(half).map_or((13, Flat::default()), |i| (0, flat(&i)));
        let got = expanded(half);
        let mut good = got == expected;
        if expected.0 == 0 {
            legal += 1;
            good &= encoded(got.1).0 == 0;
        }
        if !good {
            counts.difference(format!("half-word {half:04x}: oracle {expected:?}, library {got:?}"));
        }
    }
    println!("half-words: all 65,536, {legal} legal, {} differences", counts.differences.len());
}

/// Every word: legal here exactly if legal there, the same instruction, and encoded to the word again; the illegal ones
/// with zeros. Then instructions with fields outside their ranges, and records that are no instruction.
#[cfg(feature = "proved")]
fn words(threads: u64, counts: &mut Counts) {
    half_words(counts);
    use oracle::proved::{decoded, encoded, flat, Flat};
    let part = |thread: u64| {
        let (mut legal, mut differences) = (0u64, Vec::new());
        let end = (thread + 1) * (1 << 32) / threads;
        for word in thread * (1 << 32) / threads..end {
            let word = word as u32;
            let got = decoded(word);
            let expected = oracle::decode(word).map_or((13, Flat::default()), |i| (0, flat(&i)));
            let mut good = got == expected;
            if expected.0 == 0 {
                legal += 1;
                good &= encoded(expected.1) == (0, word);
            }
            if !good && differences.len() < 20 {
                differences.push(format!("word {word:08x}: oracle {expected:?}, library {got:?}"));
            }
        }
        (legal, differences)
    };
    let mut legal = 0;
    std::thread::scope(|scope| {
        let part = &part;
        let all: Vec<_> = (0..threads).map(|thread| scope.spawn(move || part(thread))).collect();
        for one in all {
            let (more, differences) = one.join().unwrap();
            legal += more;
            counts.differences.extend(differences);
        }
    });
    println!("words: all 2^32, {legal} legal, {} differences", counts.differences.len());
    let mut supply = oracle::supply::Supply::new(7);
    let (mut made, mut refused) = (0, 0);
    while made < 2_000_000 {
        let Some(instruction) = oracle::decode(supply.word()) else { continue };
        let instruction = bent(instruction, &mut supply);
        let expected = oracle::encode(&instruction).map_or((5, 0), |word| (0, word));
        made += 1;
        refused += (expected.0 == 5) as u64;
        let got = encoded(flat(&instruction));
        if got != expected {
            counts.difference(format!("{instruction:?}: oracle {expected:?}, library {got:?}"));
        }
        // A field more than the instruction has, or another kind or group, is refused unless it makes another
        // instruction, whose word then stands for that record.
        let mut record = flat(&instruction);
        match supply.below(10) {
            9 => record.region = supply.below(12),
            0 => record.group = supply.below(20),
            1 => record.kind = supply.below(300),
            2 => record.rd = supply.below(40),
            3 => record.rs1 = supply.below(40),
            4 => record.rs2 = supply.below(40),
            5 => record.imm = supply.edge(),
            6 => record.fm = supply.below(20),
            7 => record.pred = supply.below(20),
            _ => record.succ = supply.below(20),
        }
        let (number, word) = encoded(record);
        if number == 0 && decoded(word) != (0, record) || number != 0 && (number, word) != (5, 0) {
            counts.difference(format!("{record:?}: {number} {word:08x}"));
        }
    }
    println!("instructions: {made}, {refused} of them outside their ranges; as many records with one number changed");
}

/// The instruction with one of its numbers replaced, mostly by one about the edge of its range.
#[cfg(feature = "proved")]
fn bent(instruction: oracle::Instruction, supply: &mut oracle::supply::Supply) -> oracle::Instruction {
    use oracle::Instruction::*;
    let register = supply.pick(&[0u64, 1, 15, 16, 31, 32, 33, 64, 1 << 32]);
    let number = supply.pick(&[0u64, 1, 2, 3, 4, 5, 6, 7, 10, 11, 1 << 32, (1 << 32) + 1]);
    let whole = supply.pick(&[0i64, 1, 2, 3, -1, -2, 2047, 2048, -2048, -2049, 4094, 4095, 4096, -4096, -4097, -4098, 1048574, 1048575, 1048576, -1048576, -1048577, -1048578, i64::MAX, i64::MIN]);
    let place = supply.below(4);
    match instruction {
        Upper { kind, rd, field } => match place {
            0 => Upper { kind, rd: register, field },
            _ => Upper { kind, rd, field: supply.pick(&[0, 1, 0x7ffff, 0x80000, 0xfffff, 0x100000, 0x100001, 1 << 30]) },
        },
        Jal { rd, offset } => if place == 0 { Jal { rd: register, offset } } else { Jal { rd, offset: whole } },
        Jalr { rd, rs1, offset } => match place {
            0 => Jalr { rd: register, rs1, offset },
            1 => Jalr { rd, rs1: register, offset },
            _ => Jalr { rd, rs1, offset: whole },
        },
        Branch { kind, rs1, rs2, offset } => match place {
            0 => Branch { kind, rs1: register, rs2, offset },
            1 => Branch { kind, rs1, rs2: register, offset },
            _ => Branch { kind, rs1, rs2, offset: whole },
        },
        Load { kind, rd, rs1, offset } => match place {
            0 => Load { kind, rd: register, rs1, offset },
            1 => Load { kind, rd, rs1: register, offset },
            _ => Load { kind, rd, rs1, offset: whole },
        },
        HLoad { kind, region, rd, rs1, offset } => match place {
            0 => HLoad { kind, region, rd: register, rs1, offset },
            1 => HLoad { kind, region, rd, rs1: register, offset },
            2 => HLoad { kind, region: number, rd, rs1, offset },
            _ => HLoad { kind, region, rd, rs1, offset: whole },
        },
        Store { kind, rs1, rs2, offset } => match place {
            0 => Store { kind, rs1: register, rs2, offset },
            1 => Store { kind, rs1, rs2: register, offset },
            _ => Store { kind, rs1, rs2, offset: whole },
        },
        HStore { kind, region, rs1, rs2, offset } => match place {
            0 => HStore { kind, region, rs1: register, rs2, offset },
            1 => HStore { kind, region, rs1, rs2: register, offset },
            2 => HStore { kind, region: number, rs1, rs2, offset },
            _ => HStore { kind, region, rs1, rs2, offset: whole },
        },
        Immediate { kind, rd, rs1, value } => match place {
            0 => Immediate { kind, rd: register, rs1, value },
            1 => Immediate { kind, rd, rs1: register, value },
            _ => Immediate { kind, rd, rs1, value: whole },
        },
        Shift { kind, rd, rs1, amount } => match place {
            0 => Shift { kind, rd: register, rs1, amount },
            1 => Shift { kind, rd, rs1: register, amount },
            _ => Shift { kind, rd, rs1, amount: register },
        },
        Register { kind, rd, rs1, rs2 } => match place {
            0 => Register { kind, rd: register, rs1, rs2 },
            1 => Register { kind, rd, rs1: register, rs2 },
            _ => Register { kind, rd, rs1, rs2: register },
        },
        Fence { rd, rs1, spare } => match place {
            0 => Fence { rd: register, rs1, spare },
            1 => Fence { rd, rs1: register, spare },
            _ => Fence { rd, rs1, spare: supply.pick(&[0, 1, 4095, 4096, 4097, 1 << 20]) },
        },
        System { kind } => System { kind },
        Hfi { kind, rd, rs1, rs2 } => match place {
            0 => Hfi { kind, rd: register, rs1, rs2 },
            1 => Hfi { kind, rd, rs1: register, rs2 },
            _ => Hfi { kind, rd, rs1, rs2: register },
        },
    }
}

/// Runs the stored values, Dart's cases and the table of RV64M on an engine.
fn stored_values(engine: &dyn Engine, text: &dyn Fn(&str) -> String, counts: &mut Counts) {
    use oracle::vectors::{check_columns_with, check_dart_columns, check_table};
    let run = &mut |m: &mut Machine, bytes: &mut [u8], budget| engine.run(m, bytes, budget).unwrap();
    let file = |name: &str| text(&format!("crates/values/authoring/{name}.columns"));
    let reports = [
        ("values", check_columns_with(&file("values"), run)),
        ("dart-rv64i", check_dart_columns(&file("dart-rv64i"), run)),
        ("dart-rv64m", check_dart_columns(&file("dart-rv64m"), run)),
        ("dart-rv64c", check_dart_columns(&file("dart-rv64c"), run)),
        ("dart-beyond", check_dart_columns(&file("dart-beyond"), run)),
        ("rv64m-results", check_table(&file("operands"), &file("rv64m"), &file("rv64m-results"), run)),
    ];
    for (name, report) in reports {
        println!("{name}: {} passed, {} failed", report.passed, report.failed);
        counts.differences.extend(report.lines);
    }
}

/// The stored values, words, sheets and calls.
fn stored(engine: &dyn Engine, counts: &mut Counts) {
    let root = std::path::Path::new(env!("CARGO_MANIFEST_DIR")).join("..");
    let text = |path: &str| String::from_utf8(std::fs::read(root.join(path)).expect(path)).expect("text");
    if engine.run(&mut Default::default(), &mut [], 0).is_some() {
        stored_values(engine, &text, counts);
    }
    // Each stored word as a step outside HFI mode.
    for line in text("crates/decode_words/authoring/words.columns").lines() {
        let word = u32::from_str_radix(&line[0..8], 16).unwrap();
        let mut memory = vec![0x13u8; 0x100];
        memory[0x80..0x84].copy_from_slice(&word.to_le_bytes());
        let mut machine = Machine { pc: 0x80, ..Machine::default() };
        machine.x[6] = 0x40;
        compare_step(&Oracle, engine, &mut machine, &mut memory, counts);
    }
    if engine.decode_encode(0).is_some() {
        let (mut passed, mut failed) = (0, 0);
        for line in text("crates/decode_words/authoring/words.columns").lines() {
            let word = u32::from_str_radix(&line[0..8], 16).unwrap();
            let expected = if &line[9..10] == "1" { (0, word) } else { (13, 0) };
            if engine.decode_encode(word) == Some(expected) {
                passed += 1;
            } else {
                failed += 1;
                counts.differences.push(format!("word {line}"));
            }
        }
        println!("words: {passed} passed, {failed} failed");
    }
    let (directed, random) = (oracle::calls::directed(), oracle::calls::random());
    let (mut passed, mut failed) = (0, 0);
    for call in directed.iter().map(|row| &row.call).chain(&random) {
        let Some(answer) = call.answer(engine) else { continue };
        if Some(&answer) == call.answer(&Oracle).as_ref() {
            passed += 1;
        } else {
            failed += 1;
            counts.difference(format!("call {}: {}", call.name, answer.written("")));
        }
    }
    println!("calls: {passed} passed, {failed} failed");
    if engine.respond(b"").is_some() || engine.run(&mut Default::default(), &mut [], 0).is_some() {
        let folder = root.join("crates/sheets/data");
        let index = text("crates/sheets/data/index");
        let names: Vec<&str> = index.lines().map(|line| line.trim_end()).collect();
        let mut printed = Vec::new();
        for name in &names {
            printed.extend(format!("{name}\n").into_bytes());
            printed.extend(answer(engine, &std::fs::read(folder.join(name)).unwrap()));
        }
        let good = printed == text("crates/sheets/stdout").into_bytes();
        println!("sheets: {} {}", names.len(), if good { "as expected" } else { "DIFFER" });
        if !good {
            counts.differences.push("stored sheets".to_string());
        }
    }
}

/// The engine's answer to a sheet. If it only runs, the oracle reads the sheet
/// and prints the result.
fn answer(engine: &dyn Engine, input: &[u8]) -> Vec<u8> {
    if let Some(printed) = engine.respond(input) {
        return printed;
    }
    match read_sheet(input) {
        Err(_) => oracle::respond(input),
        Ok(sheet) => {
            let mut machine = sheet.machine;
            let (stop, count, _) = engine.run(&mut machine, &mut sheet_memory(&sheet), sheet.budget).unwrap();
            print_result(stop, count, &machine)
        }
    }
}

//! The stored sheets and vectors of this repository.

use std::path::PathBuf;

fn root() -> PathBuf {
    PathBuf::from(env!("CARGO_MANIFEST_DIR")).join("..")
}

fn text(path: &str) -> String {
    String::from_utf8(std::fs::read(root().join(path)).expect(path)).expect("text")
}

/// Sheets worked out by hand, and random and compiled programs whose registers and steps are QEMU's.
#[test]
fn sheets() {
    let index = text("crates/sheets/data/index");
    let mut printed: Vec<u8> = Vec::new();
    for name in index.lines().map(|line| line.trim_end()) {
        let input = std::fs::read(root().join("crates/sheets/data").join(name)).unwrap();
        printed.extend(format!("{name}\n").into_bytes());
        printed.extend(oracle::respond(&input));
    }
    assert!(index.lines().count() >= 1419);
    let printed = String::from_utf8(printed).unwrap();
    assert_eq!(printed, text("crates/sheets/stdout"));
    // Of the numbers of question 8, no sheet comes to 24.
    let met = |stop: &str| printed.lines().filter(|line| line.starts_with(stop) && line.split(',').count() == 9).count();
    assert!(met("14,") >= 34 && met("23,") >= 40 && met("25,") >= 48 && met("24,") == 0);
    // Each region is recorded in a fault, 10 as a.
    let faults = |region: char| printed.lines().filter(|line| line.split(',').nth(6) == Some(&region.to_string())).count();
    let least = [("0", 20), ("123", 7), ("456", 7), ("789a", 3)];
    for (regions, least) in least {
        assert!(regions.chars().all(|region| faults(region) >= least), "{regions}: {:?}", regions.chars().map(faults).collect::<Vec<_>>());
    }
}

/// The five programs of bench/ end as its table says, with three regions in use, with ten, and with half-words, where the
/// last word stands elsewhere.
#[test]
fn bench_programs() {
    for (name, steps, last, short_last, x10) in [
        ("crc-32", "18,3e20e", "8c,0,0", "6a,0,0", "10,7985cbae"),
        ("sieve", "18,3ddd4", "6c,0,0", "50,0,0", "10,8d6"),
        ("matrix", "18,70471", "dc,0,0", "a8,0,0", "10,b6f65514b410d546"),
        ("copy", "20,61a1c", "1238,1,1234", "122e,1,122a", "10,2da925fcaacf0d49"),
        ("matrix-mul", "18,1249d", "c4,0,0", "92,0,0", "10,b6f65514b410d546"),
    ] {
        for (kind, last) in [("", last), ("-ten", last), ("-c", short_last)] {
            let printed = oracle::respond(text(&format!("bench/programs/{name}{kind}.sheet")).as_bytes());
            let printed = String::from_utf8(printed).unwrap();
            assert_eq!(printed.lines().next(), Some(format!("{steps},{last},0,0,0,0").as_str()));
            assert!(printed.lines().any(|line| line == x10));
        }
    }
}

/// Each first line of the index is the one printed.
#[test]
fn index() {
    let expected = text("crates/sheets/stdout");
    let lines: Vec<&str> = expected.lines().collect();
    let mut seen = 0;
    for row in text("oracle/authoring/sheets.md").lines().filter(|row| row.starts_with("| ")) {
        let cells: Vec<&str> = row.split(" | ").collect();
        let name = cells[0].trim_start_matches("| ");
        if name == "sheet" {
            continue;
        }
        let first = cells[cells.len() - 1].trim_end_matches(" |").trim_matches('`');
        let at = lines.iter().position(|line| *line == name).expect(name);
        assert_eq!(lines[at + 1], first, "{name}");
        seen += 1;
    }
    assert!(seen >= 1137);
}

/// GNU binutils' list of the legal half-words with their long words.
#[test]
fn half_words() {
    let long = |half: u16| oracle::expand(half).map(|instruction| oracle::encode(&instruction).expect("in range"));
    let printed: String = (0..=u16::MAX).filter_map(|half| long(half).map(|word| format!("{half:04x} {word:08x}\n"))).collect();
    assert!(printed == text("crates/half_words/stdout"));
    assert_eq!(printed.lines().count(), 38_551);
}

/// The stored calls are those that the oracle writes, and it answers the
/// directed ones as they were worked out by hand.
#[test]
fn calls() {
    let (data, printed) = oracle::calls::stored();
    let (first, second) = oracle::calls::halves(&data);
    assert_eq!(first, text("crates/calls/data/calls-1"));
    assert_eq!(second, text("crates/calls/data/calls-2"));
    assert_eq!(printed, text("crates/calls/stdout"));
    assert!(oracle::calls::directed().len() >= 2786);
    assert!(oracle::calls::random().len() >= 480);
    // Each number of question 8 often, as a step and in a run.
    let mut met = std::collections::BTreeMap::new();
    let calls: Vec<&str> = data.lines().skip(1).step_by(5).collect();
    for (call, answer) in calls.iter().zip(printed.lines().skip(1).step_by(5)) {
        let (request, stop) = (call.split(',').nth(1).unwrap(), answer.split(',').nth(1).unwrap());
        *met.entry((request, stop)).or_insert(0) += 1;
    }
    for (stop, steps, runs) in [("14", 137, 18), ("23", 48, 12), ("24", 23, 12), ("25", 69, 29)] {
        let [step, run] = ["1", "2"].map(|request| met.get(&(request, stop)).copied().unwrap_or(0));
        assert!(step >= steps && run >= runs, "{stop}: {step} steps, {run} runs");
    }
}

/// The stored turns are those that the oracle writes, and it gives the directed
/// ones to the slots, and ends them with the stops, that were worked out by hand.
#[test]
fn turns() {
    let (data, printed) = oracle::stored_turns::stored();
    assert_eq!(data, text("crates/turns/data/turns"));
    assert_eq!(printed, text("crates/turns/stdout"));
    assert!(oracle::stored_turns::directed().len() >= 167);
    assert!(oracle::stored_turns::random().len() >= 50);
    // Each stop of a run in a turn, and each refusal that can be had with a small memory.
    let mut met = std::collections::BTreeSet::new();
    for line in printed.lines().filter(|line| !line.starts_with("put,") && !line.starts_with("memory")) {
        let fields: Vec<u64> = line.split(',').skip(1).take(2).map(|field| field.parse().unwrap()).collect();
        met.insert((fields[0] != 0, fields[1]));
    }
    let stops = oracle::turns::RUN_STOPS.map(|stop| (true, stop));
    let refusals = oracle::turns::REFUSALS.into_iter().filter(|number| *number != 1).map(|number| (false, number));
    for seen in stops.into_iter().chain(refusals).chain([(false, 0)]) {
        assert!(met.contains(&seen), "{seen:?}");
    }
}

fn authored(name: &str) -> String {
    text(&format!("crates/values/authoring/{name}.columns"))
}

fn good(report: oracle::vectors::Report, least: usize) {
    assert_eq!(report.failed, 0, "{:?}", report.lines);
    assert!(report.passed >= least, "{} passed", report.passed);
}

#[test]
fn values() {
    good(oracle::vectors::check_columns(&authored("values")), 1207);
}

#[test]
fn words() {
    good(oracle::vectors::check_words(&text("crates/decode_words/authoring/words.columns")), 6588);
}

#[test]
fn llvm() {
    good(oracle::vectors::check_llvm_columns(&text("crates/decode_words/authoring/llvm.columns")), 169);
}

#[test]
fn dart() {
    for (name, least) in [("dart-rv64i", 362), ("dart-rv64m", 104), ("dart-rv64c", 166), ("dart-beyond", 10)] {
        good(oracle::vectors::check_dart_columns(&authored(name), &mut oracle::run), least);
    }
}

/// Each of the 13 with 22 times 22 pairs of operands, QEMU's results.
#[test]
fn rv64m_table() {
    let (operands, words, results) = (authored("operands"), authored("rv64m"), authored("rv64m-results"));
    good(oracle::vectors::check_table(&operands, &words, &results, &mut oracle::run), 13 * 22 * 22);
}

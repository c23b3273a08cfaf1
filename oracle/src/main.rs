//! `oracle sheet`: one sheet from standard input, its answer to standard output.
//! `oracle llvm FILE`, `oracle dart FILE`: the published vectors.
//! `oracle vectors FILE`: the fixed-column value cases.
//! `oracle words FILE`: words and whether they are legal.
//! `oracle halves`: each half-word with the long word that has its instruction, or `-` if it is illegal.
//! `oracle sheets FOLDER`: every sheet of a folder with its answer, by name.
//! `oracle calls FOLDER`: writes the calls and their answers to FOLDER/data/calls-1, FOLDER/data/calls-2 and
//! FOLDER/stdout.
//! `oracle turns FOLDER`: writes the records of turns and their answers to FOLDER/data/turns and FOLDER/stdout.

use std::io::{Read, Write};

fn main() {
    let arguments: Vec<String> = std::env::args().collect();
    let command = arguments.get(1).map(|s| s.as_str()).unwrap_or("");
    let file = || arguments.get(2).expect("a path is missing").clone();
    match command {
        "sheet" => {
            let mut input = Vec::new();
            std::io::stdin().read_to_end(&mut input).expect("standard input");
            std::io::stdout().write_all(&oracle::respond(&input)).expect("standard output");
        }
        "llvm" => finish(oracle::vectors::check_llvm(&read(&file()))),
        "dart" => finish(oracle::vectors::check_dart(&read(&file()))),
        "vectors" => finish(oracle::vectors::check_columns(&read(&file()))),
        "words" => finish(oracle::vectors::check_words(&read(&file()))),
        "halves" => {
            for half in (0..=u16::MAX).filter(|half| !oracle::half_words::begins_long_word(*half)) {
                let long = oracle::expand(half).map(|instruction| oracle::encode(&instruction).expect("in range"));
                println!("{half:04x} {}", long.map_or("-".to_string(), |word| format!("{word:08x}")));
            }
        }
        "sheets" => {
            let mut names: Vec<String> = std::fs::read_dir(file())
                .expect("folder")
                .map(|entry| entry.unwrap().file_name().into_string().unwrap())
                .filter(|name| !name.contains('.'))
                .collect();
            names.sort();
            let mut out = std::io::stdout();
            for name in names {
                let input = std::fs::read(format!("{}/{}", file(), name)).unwrap();
                out.write_all(format!("{name}\n").as_bytes()).unwrap();
                out.write_all(&oracle::respond(&input)).unwrap();
            }
        }
        "calls" => {
            let (data, printed) = oracle::calls::stored();
            let (first, second) = oracle::calls::halves(&data);
            std::fs::write(format!("{}/data/calls-1", file()), &first).expect("data/calls-1");
            std::fs::write(format!("{}/data/calls-2", file()), &second).expect("data/calls-2");
            std::fs::write(format!("{}/stdout", file()), &printed).expect("stdout");
            println!("{} calls, {} bytes, {} bytes of answers", data.lines().count() / 5, data.len(), printed.len());
        }
        "turns" => {
            let (data, printed) = oracle::stored_turns::stored();
            std::fs::write(format!("{}/data/turns", file()), &data).expect("data/turns");
            std::fs::write(format!("{}/stdout", file()), &printed).expect("stdout");
            println!("{} records, {} bytes, {} bytes of answers", data.lines().count(), data.len(), printed.len());
        }
        _ => {
            eprintln!("use: oracle sheet | llvm FILE | dart FILE | vectors FILE | words FILE | halves | sheets FOLDER | calls FOLDER | turns FOLDER");
            std::process::exit(2);
        }
    }
}

fn read(path: &str) -> String {
    String::from_utf8(std::fs::read(path).expect(path)).expect("text")
}

fn finish(report: oracle::vectors::Report) {
    for line in &report.lines {
        println!("{line}");
    }
    println!("{} passed, {} failed", report.passed, report.failed);
    if report.failed > 0 {
        std::process::exit(1);
    }
}

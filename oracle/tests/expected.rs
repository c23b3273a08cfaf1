//! The answers of the outside model (`shared/expected`), where they are at
//! hand: sheets and calls of Jobs 1 to 8.

use std::path::Path;

use oracle::*;

/// What stands beside the working tree; none elsewhere.
fn expected(name: &str) -> Option<Vec<u8>> {
    let path = Path::new(env!("CARGO_MANIFEST_DIR")).join("../../shared/expected").join(name);
    std::fs::read(path).ok()
}

fn line(bytes: &[u8], at: &mut usize) -> String {
    let end = *at + bytes[*at..].iter().position(|byte| *byte == b'\n').expect("a line end");
    let text = String::from_utf8(bytes[*at..end].to_vec()).unwrap();
    *at = end + 1;
    text
}

/// `@ NUMBER KIND BYTES-IN BYTES-OUT`, the bytes in, the bytes out.
#[test]
fn sheets() {
    let Some(bytes) = expected("job-8.txt") else { return };
    let (mut at, mut seen) = (0, 0);
    while at < bytes.len() {
        let head = line(&bytes, &mut at);
        let lengths: Vec<usize> = head.split(' ').skip(3).map(|field| field.parse().unwrap()).collect();
        let (sheet, printed) = bytes[at..at + lengths[0] + lengths[1]].split_at(lengths[0]);
        assert_eq!(String::from_utf8(respond(sheet)).unwrap(), String::from_utf8_lossy(printed), "{head}");
        at += lengths[0] + lengths[1];
        seen += 1;
    }
    assert!(seen >= 499);
}

fn numbers(text: &str) -> Vec<u64> {
    text.split([',', ' ']).filter(|part| *part != "@").map(|part| u64::from_str_radix(part, 16).expect(part)).collect()
}

/// The numbers of a machine in the order of its record.
fn machine(text: &str) -> Machine {
    let mut left = numbers(text).into_iter();
    let mut next = || left.next().expect("a number");
    let mut m = Machine::default();
    m.x.iter_mut().for_each(|x| *x = next());
    (m.pc, m.mode, m.reason, m.exit_pc) = (next(), next(), next(), next());
    (m.options, m.handler, m.selector) = (next(), next(), next());
    for region in m.regions.iter_mut() {
        *region = Region { base: next(), bound: next(), permission: next() };
    }
    m.fault = Fault { occurred: next(), region: next(), op: next(), address: next() };
    assert_eq!(left.next(), None);
    m
}

fn uncounted((stop, address): (u64, u64)) -> (u64, u64, u64) {
    (stop, 0, address)
}

/// `@ NUMBER CALL ARGUMENT LENGTH PLACED CHANGED`, the machine, the words
/// placed, the answer, the machine afterwards, the bytes changed.
#[test]
fn calls() {
    let Some(bytes) = expected("calls-8.txt") else { return };
    let (mut at, mut seen) = (0, 0);
    while at < bytes.len() {
        let head = line(&bytes, &mut at);
        let [_, call, argument, length, placed, changed] = numbers(&head)[..] else { panic!("{head}") };
        let mut m = machine(&line(&bytes, &mut at));
        let mut memory = vec![0u8; length as usize + 8];
        for _ in 0..placed {
            let [address, word] = numbers(&line(&bytes, &mut at))[..] else { panic!("{head}") };
            memory[address as usize..address as usize + 4].copy_from_slice(&(word as u32).to_le_bytes());
        }
        memory.truncate(length as usize);
        let told = numbers(&line(&bytes, &mut at));
        let (left, mut after) = (machine(&line(&bytes, &mut at)), memory.clone());
        for _ in 0..changed {
            let [address, byte] = numbers(&line(&bytes, &mut at))[..] else { panic!("{head}") };
            after[address as usize] = byte as u8;
        }
        let (stop, count, address) = match call {
            1 => uncounted(step(&mut m, &mut memory)),
            2 => run(&mut m, &mut memory, argument),
            _ => uncounted((resume(&mut m, argument), 0)),
        };
        assert_eq!(vec![stop, count, address], told, "{head}");
        assert!(m == left && memory == after, "{head}");
        seen += 1;
    }
    assert!(seen >= 527);
}

//! The run sheet: reading, refusing, running, printing.

use crate::machine::{Machine, Region};
use crate::run::run;

pub const SHEET_LIMIT: usize = 65_536;
pub const SHEET_MEMORY: usize = 65_536;
/// Document 02, Job 4: "An empty budget now means 50,000."
pub const EMPTY_BUDGET: u64 = 50_000;
/// "A setup line has 13 fields, the other regions then being zero, or 34" (document 02, Job 7): three before the regions,
/// three for each of the first 3 regions or of all, and the budget.
const SETUP_FIELDS: [usize; 2] = [13, 34];
const WORD_FIELDS: usize = 2;

/// A sheet that passed questions 30 to 35.
#[derive(Clone, Debug, PartialEq, Eq)]
pub struct Sheet {
    pub machine: Machine,
    pub budget: u64,
    pub words: Vec<(u64, u64)>,
}

/// The first no: its number and line.
pub type Refusal = (u64, usize);

fn is_digit(byte: u8) -> bool {
    (b'0'..=b'9').contains(&byte) || (b'a'..=b'f').contains(&byte)
}

fn digit_value(byte: u8) -> u64 {
    if byte <= b'9' {
        (byte - b'0') as u64
    } else {
        (byte - b'a') as u64 + 10
    }
}

/// The number that 1 to 16 digits write.
fn number(digits: &[u8]) -> u64 {
    let mut value = 0u64;
    for byte in digits {
        value = value * 16 + digit_value(*byte);
    }
    value
}

/// Questions 30 to 35 in their order.
pub fn read_sheet(input: &[u8]) -> Result<Sheet, Refusal> {
    // 30: is the length 1 to 65,536 with last byte 0a?
    if input.is_empty() || input.len() > SHEET_LIMIT || input[input.len() - 1] != b'\n' {
        return Err((30, 0));
    }
    // 31: is every byte a digit 0-9, a-f, comma or 0a?
    for place in 0..input.len() {
        let byte = input[place];
        if !is_digit(byte) && byte != b',' && byte != b'\n' {
            let line_ends_before = input[..place].iter().filter(|b| **b == b'\n').count();
            return Err((31, line_ends_before + 1));
        }
    }
    let mut lines: Vec<&[u8]> = input.split(|byte| *byte == b'\n').collect();
    lines.pop(); // what stands after the last 0a is empty

    let mut machine = Machine { mode: 1, ..Machine::default() };
    let mut budget = EMPTY_BUDGET;
    let mut words: Vec<(u64, u64)> = Vec::new();
    for (index, line) in lines.iter().enumerate() {
        let line_number = index + 1;
        let first = line_number == 1;
        let fields: Vec<&[u8]> = line.split(|byte| *byte == b',').collect();
        // 32: are there 13 or 34 fields (line 1) or 2?
        let fits = if first { SETUP_FIELDS.contains(&fields.len()) } else { fields.len() == WORD_FIELDS };
        if !fits {
            return Err((32, line_number));
        }
        // 33: has each field 1 to 16 digits (an empty budget passes)?
        for (place, field) in fields.iter().enumerate() {
            let empty_budget = first && place == fields.len() - 1 && field.is_empty();
            if !empty_budget && (field.is_empty() || field.len() > 16) {
                return Err((33, line_number));
            }
        }
        let values: Vec<u64> = fields.iter().map(|field| number(field)).collect();
        if first {
            machine.pc = values[0];
            machine.options = values[1];
            machine.handler = values[2];
            let last = fields.len() - 1;
            for (n, three) in values[3..last].chunks(3).enumerate() {
                machine.regions[n] = Region { base: three[0], bound: three[1], permission: three[2] };
            }
            if !fields[last].is_empty() {
                budget = values[last];
            }
            // 34: are options and permissions at most ff, budget at most ffffffff?
            let permissions_fit = machine.regions.iter().all(|region| region.permission <= 0xff);
            if machine.options > 0xff || !permissions_fit || budget > 0xffff_ffff {
                return Err((34, line_number));
            }
        } else {
            let (address, word) = (values[0], values[1]);
            // 34: are words at most ffffffff, addresses multiples of 4 and at
            // most fffc?
            if word > 0xffff_ffff || address % 4 != 0 || address > 0xfffc {
                return Err((34, line_number));
            }
            // 35: do addresses rise strictly?
            if let Some((before, _)) = words.last() {
                if *before >= address {
                    return Err((35, line_number));
                }
            }
            words.push((address, word));
        }
    }
    Ok(Sheet { machine, budget, words })
}

/// The memory of a sheet: zero bytes, then the words.
pub fn sheet_memory(sheet: &Sheet) -> Vec<u8> {
    let mut memory = vec![0u8; SHEET_MEMORY];
    for (address, word) in &sheet.words {
        for i in 0..4 {
            memory[*address as usize + i] = (word >> (8 * i)) as u8;
        }
    }
    memory
}

/// What the program prints for a run's end.
pub fn print_result(stop: u64, count: u64, machine: &Machine) -> Vec<u8> {
    let fault = machine.fault;
    let mut text = format!(
        "{},{:x},{:x},{:x},{:x},{:x},{:x},{:x},{:x}\n",
        stop,
        count,
        machine.pc,
        machine.reason,
        machine.exit_pc,
        fault.occurred,
        fault.region,
        fault.op,
        fault.address
    );
    for register in 0..32 {
        if machine.x[register] != 0 {
            text.push_str(&format!("{},{:x}\n", register, machine.x[register]));
        }
    }
    text.into_bytes()
}

/// The whole program: sheet in, printed bytes out.
pub fn respond(input: &[u8]) -> Vec<u8> {
    match read_sheet(input) {
        Err((question, line)) => format!("sheet,{question},{line}\n").into_bytes(),
        Ok(sheet) => {
            let mut machine = sheet.machine;
            let mut memory = sheet_memory(&sheet);
            let (stop, count, _address) = run(&mut machine, &mut memory, sheet.budget);
            print_result(stop, count, &machine)
        }
    }
}

//! Directed tests of questions 30 to 35 and of the printed form.

use oracle::compare::{
    empty_budget, empty_budgets_unmet, empty_elsewhere, long_sheets, long_sheets_unmet, rounds, Counts, Engine, Oracle,
    EMPTY_TURNS, H_ROUNDS,
};
use oracle::sheet::read_sheet;
use oracle::supply::{sheet_of, written_out, Supply};
use oracle::{respond, Machine};

const SETUP: &str = "0,0,0,0,0,0,0,0,0,0,fffffffffffffff0,4,a\n";

fn check(input: &str, expected: &str) {
    assert_eq!(String::from_utf8(respond(input.as_bytes())).unwrap(), expected, "{input:?}");
}

#[test]
fn thirty() {
    check("", "sheet,30,0\n");
    check("0", "sheet,30,0\n");
    check("0,0,0,0,0,0,0,0,0,0,fffffffffffffff0,4,a", "sheet,30,0\n");
    check("X", "sheet,30,0\n");
    check(&"\n".repeat(65_537), "sheet,30,0\n");
    check(&"\n".repeat(65_536), "sheet,32,1\n");
    check(&format!("{}X\n", "\n".repeat(65_536)), "sheet,30,0\n");
}

#[test]
fn thirty_one() {
    check("X\n", "sheet,31,1\n");
    check("\n\nX\n", "sheet,31,3\n");
    check("1\nA\n", "sheet,31,2\n");
    for bad in ["g", "A", "F", " ", "\t", "\r", "-", "/", ":", "`", "x", "\0", "\u{7f}", "\""] {
        check(&format!("{SETUP}0,{bad}1\n"), "sheet,31,2\n");
    }
    assert_eq!(respond(&[0x80, 0x0a]), b"sheet,31,1\n");
    assert_eq!(respond(&[0x0a, 0xff, 0x0a]), b"sheet,31,2\n");
    assert_eq!(respond(&[0x0a, 0xb0, 0x0a]), b"sheet,31,2\n");
}

#[test]
fn thirty_two() {
    check("\n", "sheet,32,1\n");
    check("0\n", "sheet,32,1\n");
    check("0,0,0,0,0,0,0,0,0,0,0,0\n", "sheet,32,1\n");
    check("0,0,0,0,0,0,0,0,0,0,0,0,0,0\n", "sheet,32,1\n");
    check(&format!("{SETUP}\n"), "sheet,32,2\n");
    check(&format!("{SETUP}0\n"), "sheet,32,2\n");
    check(&format!("{SETUP}0,13,0\n"), "sheet,32,2\n");
    check(&format!("{SETUP}0,13\n\n"), "sheet,32,3\n");
    // before 33 in the same line
    check(",,\n", "sheet,32,1\n");
    check(&format!("{SETUP},,\n"), "sheet,32,2\n");
}

#[test]
fn thirty_three() {
    check(&format!("{SETUP},13\n"), "sheet,33,2\n");
    check(&format!("{SETUP}0,\n"), "sheet,33,2\n");
    check(&format!("{SETUP}0,00000000000000013\n"), "sheet,33,2\n");
    check(&format!("{SETUP}0,0000000000000013\n"), "13,1,4,0,0,0,0,0,0\n");
    check(",0,0,0,0,0,0,0,0,0,0,0,\n", "sheet,33,1\n");
    check("0,0,0,0,0,0,0,0,0,0,0,,\n", "sheet,33,1\n");
    check("0,0,0,0,0,0,0,0,0,0,0,0,00000000000000001\n", "sheet,33,1\n");
    // before 34
    check(&format!("{SETUP}1,\n"), "sheet,33,2\n");
}

#[test]
fn thirty_four() {
    check("0,ff,0,0,0,0,0,0,0,0,0,0,a\n", "3,0,0,0,0,0,0,0,0\n");
    check("0,100,0,0,0,0,0,0,0,0,0,0,a\n", "sheet,34,1\n");
    check("0,0,0,0,0,100,0,0,0,0,0,0,a\n", "sheet,34,1\n");
    check("0,0,0,0,0,0,0,0,100,0,0,0,a\n", "sheet,34,1\n");
    check("0,0,0,0,0,0,0,0,0,0,0,100,a\n", "sheet,34,1\n");
    check("0,0,0,0,0,0,0,0,0,0,0,ffffffffffffffff,a\n", "sheet,34,1\n");
    check("0,0,0,0,0,0,0,0,0,0,0,0,100000000\n", "sheet,34,1\n");
    check("0,0,0,0,0,0,0,0,0,0,0,0,ffffffff\n", "2,0,0,0,0,0,0,0,0\n");
    check(&format!("{SETUP}0,100000000\n"), "sheet,34,2\n");
    check(&format!("{SETUP}0,0000000100000000\n"), "sheet,34,2\n");
    for address in ["1", "2", "3", "10000", "fffd", "fffe", "ffff", "fffffffffffffffc"] {
        check(&format!("{SETUP}{address},13\n"), "sheet,34,2\n");
    }
    check(&format!("{SETUP}0,13\nfffc,13\n"), "13,1,4,0,0,0,0,0,0\n");
    // before 35
    check(&format!("{SETUP}4,13\n3,13\n"), "sheet,34,3\n");
}

#[test]
fn thirty_five() {
    check(&format!("{SETUP}0,13\n0,13\n"), "sheet,35,3\n");
    check(&format!("{SETUP}4,13\n0,13\n"), "sheet,35,3\n");
    check(&format!("{SETUP}0,13\n4,13\n8,13\n4,13\n"), "sheet,35,5\n");
    // line by line: 35 in line 3 before 32 in line 4
    check(&format!("{SETUP}4,13\n4,13\n0\n"), "sheet,35,3\n");
}

#[test]
fn line_numbers_are_decimal() {
    let mut text = SETUP.to_string();
    for i in 0..20 {
        text.push_str(&format!("{:x},13\n", 4 * i));
    }
    check(&format!("{text}0,13\n"), "sheet,35,22\n");
}

#[test]
fn steps_are_hexadecimal() {
    check("0,0,0,0,0,0,0,0,0,0,fffffffffffffff0,4,1f\n0,6f\n", "21,1f,0,0,0,0,0,0,0\n");
    check("0,0,0,0,0,0,0,0,0,0,fffffffffffffff0,4,\n0,6f\n", "21,c350,0,0,0,0,0,0,0\n");
}

/// A sheet with this budget: n rounds of two words, which take 2 + 2n steps, then these lines from 10 on.
fn rounds_of(n: u64, budget: &str, then: &str) -> String {
    assert!(n & 0xfff < 0x800);
    // lui x5; addi x5,x5; addi x5,x5,-1; bne x5,x0,-4
    let words = format!("0,{:x}\n4,{:x}\n8,fff28293\nc,fe029ee3\n", n >> 12 << 12 | 0x2b7, (n & 0xfff) << 20 | 0x28293);
    format!("0,0,0,0,0,0,0,0,0,0,ffffffffffffffe0,4,{budget}\n{words}{then}")
}

#[test]
fn an_empty_budget_is_50_000() {
    for budget in ["", "c350", "0c350", "000000000000c350"] {
        // never ends; 50,000 and 49,999 steps before an ECALL; the 50,000th and the 50,001st leaves
        check(&format!("0,0,0,0,0,0,0,0,0,0,fffffffffffffff0,4,{budget}\n0,6f\n"), "21,c350,0,0,0,0,0,0,0\n");
        check(&rounds_of(24_999, budget, "10,73\n"), "21,c350,10,0,0,0,0,0,0\n");
        check(&rounds_of(24_998, budget, "10,13\n14,73\n"), "18,c34f,14,0,0,0,0,0,0\n");
        check(&rounds_of(24_998, budget, "10,13\n14,400005b\n"), "20,c350,18,1,14,0,0,0,0\n");
        check(&rounds_of(24_999, budget, "10,400005b\n"), "21,c350,10,0,0,0,0,0,0\n");
        // about the old default
        check(&rounds_of(499, budget, "10,73\n"), "18,3e8,10,0,0,0,0,0,0\n");
        check(&rounds_of(499, budget, "10,13\n14,73\n"), "18,3e9,14,0,0,0,0,0,0\n");
        // only line 1; 3 before any step
        check(&format!("8,0,0,0,0,0,0,0,0,0,fffffffffffffff0,4,{budget}\n"), "13,0,8,0,0,0,0,0,0\n");
        check(&format!("8,10,0,0,0,0,0,0,0,0,fffffffffffffff0,4,{budget}\n"), "3,0,8,0,0,0,0,0,0\n");
    }
    check(&rounds_of(24_999, "c34f", "10,73\n"), "21,c34f,c,0,0,0,0,0,0\n");
    check(&rounds_of(24_999, "c351", "10,73\n"), "18,c350,10,0,0,0,0,0,0\n");
    check(&rounds_of(499, "3e8", "10,73\n"), "21,3e8,10,0,0,0,0,0,0\n");
}

#[test]
fn only_the_budget_may_be_empty() {
    for budget in ["", "c350"] {
        for place in 0..12 {
            let mut fields = vec!["0"; 12];
            fields[place] = "";
            check(&format!("{},{budget}\n0,13\n", fields.join(",")), "sheet,33,1\n");
        }
        let first = "0,0,0,0,0,0,0,0,0,0,0,0";
        check(&format!("{first},{budget}\n,13\n"), "sheet,33,2\n");
        check(&format!("{first},{budget}\n0,\n"), "sheet,33,2\n");
        check(&format!("{first}{budget}\n"), "sheet,32,1\n");
    }
}

/// A longest sheet may have an empty budget though there is no room to write it out.
#[test]
fn the_longest_sheet_with_an_empty_budget() {
    let setup = "0,0,0,0,0,0,0,0,0,0,fffffffffffffff0,4,\n0,6f\n";
    let zeros = |count: usize| (1..=count).map(|n| format!("{:016x},{:016x}\n", 4 * n, 0)).collect::<String>();
    let count = (65_536 - setup.len()) / 34;
    let short = format!("{setup}{}", zeros(count));
    let longest = short.replacen("0,6f", &format!("{:0width$x},6f", 0, width = 1 + 65_536 - short.len()), 1);
    assert!(longest.len() == 65_536 && longest.lines().count() == count + 2);
    check(&longest, "21,c350,0,0,0,0,0,0,0\n");
    assert_eq!(written_out(longest.as_bytes()), None);
    let four_less = longest.replacen("0000", "", 1);
    assert_eq!(written_out(four_less.as_bytes()).unwrap().len(), 65_536);
    check(&four_less, "21,c350,0,0,0,0,0,0,0\n");
}

#[test]
fn registers_rise_in_decimal() {
    // addi x31,x0,-1; addi x1,x0,10; addi x16,x0,0
    check(
        "0,0,0,0,0,0,0,0,0,0,fffffffffffffff0,4,3\n0,fff00f93\n4,00a00093\n8,00000813\n",
        "21,3,c,0,0,0,0,0,0\n1,a\n31,ffffffffffffffff\n",
    );
}

/// The shortest sheet of so many words: a line 1 of 26 bytes, then 4 lines of 4, 60 of 5, 960 of 6 and the others of 7.
fn shortest(words: usize) -> String {
    let mut text = "0,0,0,0,0,0,0,0,0,0,0,0,0\n".to_string();
    for n in 0..words {
        text.push_str(&format!("{:x},{:x}\n", 4 * n, n % 16));
    }
    text
}

#[test]
fn as_many_words_as_fit() {
    let text = shortest(9_514);
    assert_eq!(text.len(), 26 + 4 * 4 + 60 * 5 + 960 * 6 + 8_490 * 7);
    check(&text, "21,0,0,0,0,0,0,0,0\n");
    let words = read_sheet(text.as_bytes()).unwrap().words;
    assert_eq!(words.len(), 9_514);
    assert!((0..9_514).all(|n| words[n] == (4 * n as u64, n as u64 % 16)));
    // no room for another, not even with an empty budget
    check(&shortest(9_515), "sheet,30,0\n");
    check(&shortest(9_515).replacen(",0\n", ",\n", 1), "sheet,30,0\n");
}

#[test]
fn largest_line_numbers() {
    // after as many words as fit there is room for 4 bytes
    for (line, question) in [("g", 31), ("", 32), (",", 33), ("1,0", 34), ("0,0", 35)] {
        check(&format!("{}{line}\n", shortest(9_514)), &format!("sheet,{question},9516\n"));
    }
    check(&format!("{}X\n", "\n".repeat(65_534)), "sheet,31,65535\n");
    check(&format!("{}X\n", "\n".repeat(9_998)), "sheet,31,9999\n");
    check(&format!("{}X\n", "\n".repeat(9_999)), "sheet,31,10000\n");
    // fields are no lines
    check(&format!("{SETUP}{}X\n", ",".repeat(3_000)), "sheet,31,2\n");
    check(&format!("{}{}0\n", shortest(2_000), "0,".repeat(2_000)), "sheet,32,2002\n");
    // right before a line end, and right after it
    check(&format!("{}{}\r\n", shortest(2_000), "2000,0"), "sheet,31,2002\n");
    check(&format!("{}{}\n\r\n", shortest(2_000), "2000,0"), "sheet,31,2003\n");
}

/// A fault in a known line of a long sheet is told with that line, whatever stands after it and, for 31, before it.
#[test]
fn long_sheets_tell_the_line() {
    let most = usize::MAX;
    for (seed, (words, widest)) in [(3_000, 1), (3_000, 6), (most, 1), (most, 1), (most, 6), (most, 16)].into_iter().enumerate() {
        let mut supply = Supply::new(seed as u64);
        let lines = supply.long_lines(words, widest);
        let n = lines.len();
        assert!(if words == most { n > 2_000 } else { n == words + 1 }, "{n} lines");
        assert!(!respond(&sheet_of(&lines)).starts_with(b"sheet"));
        for k in [1, 2, 3, 9, 10, 11, 99, 100, 101, 255, 256, 257, 999, 1_000, 1_001, n / 2, n - 1, n] {
            for question in if k < 3 { 31..=34 } else { 31..=35 } {
                let mut changed = lines.clone();
                supply.plant(&mut changed, question, k);
                // one more than the 0a bytes before that line
                let start = changed[..k - 1].iter().map(|line| line.len() + 1).sum::<usize>();
                assert_eq!(sheet_of(&changed)[..start].iter().filter(|byte| **byte == b'\n').count(), k - 1);
                let told = |lines: &[Vec<u8>]| {
                    let printed = String::from_utf8(respond(&sheet_of(lines))).unwrap();
                    assert_eq!(printed, format!("sheet,{question},{k}\n"), "seed {seed}");
                };
                told(&changed);
                changed[k..].iter_mut().for_each(Vec::clear);
                told(&changed);
                if question == 31 {
                    changed[..k - 1].iter_mut().for_each(Vec::clear);
                    told(&changed);
                }
            }
        }
    }
}

/// An engine that answers sheets so, and nothing else.
struct Answering<F: Fn(&[u8]) -> Vec<u8>>(F);

impl<F: Fn(&[u8]) -> Vec<u8>> Engine for Answering<F> {
    fn title(&self) -> String {
        "answering".to_string()
    }
    fn decode_encode(&self, _word: u32) -> Option<(u64, u32)> {
        None
    }
    fn step(&self, _machine: &mut Machine, _memory: &mut [u8]) -> Option<(u64, u64)> {
        None
    }
    fn run(&self, _machine: &mut Machine, _memory: &mut [u8], _budget: u64) -> Option<(u64, u64, u64)> {
        None
    }
    fn resume(&self, _machine: &mut Machine, _value: u64) -> Option<u64> {
        None
    }
    fn respond(&self, sheet: &[u8]) -> Option<Vec<u8>> {
        Some((self.0)(sheet))
    }
}

/// How many of the sheets that long sheets come to are answered otherwise, if refusals have another line number: what the
/// fault makes of the sheet's lines, the question and the line.
fn miscounted(fault: fn(&[&[u8]], u64, usize) -> usize) -> u64 {
    let engine = Answering(|sheet: &[u8]| {
        let Err((question, line)) = read_sheet(sheet) else { return respond(sheet) };
        let lines: Vec<&[u8]> = sheet.split(|byte| *byte == b'\n').collect();
        let line = if question == 30 { 0 } else { fault(&lines, question, line) };
        format!("sheet,{question},{line}\n").into_bytes()
    });
    let mut counts = Counts::default();
    for turn in 0..4 {
        long_sheets(&Oracle, &engine, &mut Supply::new(turn), turn, &mut counts);
    }
    counts.differing
}

#[test]
fn miscounts_are_caught() {
    assert_eq!(miscounted(|_, _, k| k), 0);
    let faults: [fn(&[&[u8]], u64, usize) -> usize; 12] = [
        // a byte for the number, three digits of it, a fault only late in the longest sheets
        |_, _, k| k % 256,
        |_, _, k| k % 1_000,
        |_, _, k| if k > 9_000 { k + 1 } else { k },
        // 31 told before the number is advanced, 31 told at the end of the sheet, 31's number carried on
        |_, question, k| if question == 31 { k.max(2) - 1 } else { k },
        |lines, question, k| if question == 31 { lines.len() - 1 } else { k },
        |lines, question, k| if question == 31 { k } else { k + lines.len() - 1 },
        // counted from 0, the line of the address before, advanced before line 1
        |_, question, k| if question == 31 { k } else { k - 1 },
        |_, question, k| if question == 35 { k - 1 } else { k },
        |_, _, k| k.max(2),
        // advanced for each comma or within long lines, blank lines left out
        |lines, _, k| 1 + lines[..k - 1].concat().iter().filter(|byte| **byte == b',').count(),
        |lines, _, k| k + lines[..k - 1].iter().filter(|line| line.len() > 16).count(),
        |lines, _, k| k - lines[..k - 1].iter().filter(|line| line.is_empty()).count(),
    ];
    for (n, fault) in faults.into_iter().enumerate() {
        assert!(miscounted(fault) > 0, "fault {n}");
    }
}

/// The sheet with these digits in an empty field of this line and place, both from 0; another sheet as it is.
fn filled(sheet: &[u8], line: usize, place: usize, digits: &str) -> Vec<u8> {
    let mut lines: Vec<Vec<u8>> = sheet.split(|byte| *byte == b'\n').map(|line| line.to_vec()).collect();
    let mut fields: Vec<&[u8]> = lines.get(line).map_or(Vec::new(), |line| line.split(|byte| *byte == b',').collect());
    if fields.get(place).is_some_and(|field| field.is_empty()) {
        fields[place] = digits.as_bytes();
        lines[line] = fields.join(&b',');
    }
    lines.join(&b'\n')
}

/// An engine that takes an empty field as if these digits stood there.
fn filling(line: usize, place: usize, digits: &str) -> impl Engine + '_ {
    Answering(move |sheet: &[u8]| respond(&filled(sheet, line, place, digits)))
}

/// How many of the sheets with an empty budget are answered otherwise.
fn misread(engine: impl Engine) -> u64 {
    let mut counts = Counts::default();
    for turn in 0..EMPTY_TURNS {
        empty_budget(&Oracle, &engine, &mut Supply::new(turn), turn, &mut counts);
    }
    counts.differing
}

/// How many of those with another empty field.
fn passed_over(engine: impl Engine) -> u64 {
    let mut counts = Counts::default();
    empty_elsewhere(&Oracle, &engine, &mut Supply::new(1), &mut counts);
    counts.differing
}

#[test]
fn other_defaults_are_caught() {
    assert_eq!(misread(filling(0, 12, "c350")), 0);
    assert_eq!(passed_over(filling(0, 12, "c350")), 0);
    // the old default, one step off, the digits of 50,000, others
    for digits in ["3e8", "c34f", "c351", "50000", "c3500", "0", "1", "f4240", "f4241", "ffffffff"] {
        assert!(misread(filling(0, 12, digits)) > 0, "{digits}");
    }
    // a default for another field
    for (line, place) in (0..12).map(|place| (0, place)).chain([(1, 0), (1, 1)]) {
        assert!(passed_over(filling(line, place, "c350")) > 0, "field {place}");
        assert!(passed_over(filling(line, place, "0")) > 0, "field {place}");
    }
    // c350 written out has the old meaning; an empty budget is refused
    let written = |sheet: &[u8]| respond(String::from_utf8_lossy(sheet).replacen(",c350\n", ",3e8\n", 1).as_bytes());
    assert!(misread(Answering(written)) > 0);
    let refusing = |sheet: &[u8]| if written_out(sheet).is_some() { b"sheet,33,1\n".to_vec() } else { respond(sheet) };
    assert!(misread(Answering(refusing)) > 0);
    // by the whole comparison too
    for engine in [filling(0, 12, "3e8"), filling(0, 2, "c350")] {
        let mut counts = Counts::default();
        rounds(&Oracle, &engine, 1, EMPTY_TURNS, &mut counts);
        assert!(counts.differing > 0);
    }
}

/// Programs that are to complete so many steps do so where the budget lets them.
#[test]
fn lasting_programs_last() {
    let mut supply = Supply::new(1);
    for steps in (20..60).chain([998, 1_000, 4_096, 49_999, 50_000, 50_001, 50_010, 500_000, 999_998]) {
        for leaves in [false, true] {
            let (lines, stop) = supply.lasting_lines(steps, leaves);
            let budget = lines[0].iter().filter(|byte| **byte == b',').count();
            let written = filled(&sheet_of(&lines), 0, budget, "f4240");
            let printed = String::from_utf8(respond(&written)).unwrap();
            assert!(printed.starts_with(&format!("{stop},{:x},", steps + leaves as u64)), "{steps} {stop} {printed}");
        }
    }
}

/// The fewest rounds that ask for it have each number of steps of empty budgets.
#[test]
fn every_number_of_steps_is_met() {
    let mut counts = Counts::default();
    rounds(&Oracle, &Oracle, 100, EMPTY_TURNS, &mut counts);
    assert!(counts.differences.is_empty(), "{:?}", counts.differences);
    assert_eq!(empty_budgets_unmet(&counts), Vec::<String>::new());
    // Each is asked for, and another empty field.
    assert_eq!(empty_budgets_unmet(&Counts::default()).len() as u64, EMPTY_TURNS + 1);
}

/// The fewest rounds that ask for it have a fault for each question in each place, whatever the seed.
#[test]
fn every_place_of_long_sheets_is_met() {
    for seed in 0..10 {
        let mut counts = Counts::default();
        rounds(&Oracle, &Oracle, 100 + seed, H_ROUNDS, &mut counts);
        assert!(counts.differences.is_empty(), "{:?}", counts.differences);
        assert_eq!(long_sheets_unmet(&counts), Vec::<String>::new());
    }
    // Each is asked for: eight places, 35 not in two of them, and a longest sheet.
    assert_eq!(long_sheets_unmet(&Counts::default()).len(), 5 * 8 - 2 + 1);
}

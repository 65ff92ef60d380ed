//! Lines for the replay program's tests: how a line may end, and every reason why one is no tick.

use crate::replay_files::{plain, Run};

/// How many numbers are wanted; word 13 is the preemption, word 14 the bypass.
const WANTED: usize = 20;

/// A tick's line, without its newline.
fn line() -> String {
    plain(0).text().trim_end().to_string()
}

/// A run of a good line, the line given, and a good one, which is read only if that line is a tick.
fn between(name: &str, middle: impl AsRef<[u8]>) -> Run {
    let good = plain(0).text();
    Run::new("site.bin", name, [good.as_bytes(), middle.as_ref(), b"\n", good.as_bytes()].concat())
}

/// A run of a good line and a last one that lacks its newline.
fn last(name: &str, end: &str) -> Run {
    Run::new("site.bin", name, plain(0).text() + end)
}

/// The line with word k, from 1, replaced.
fn with(changes: &[(usize, &str)]) -> String {
    let line = line();
    let mut words: Vec<&str> = line.split(' ').collect();
    for (k, word) in changes {
        words[k - 1] = word;
    }
    words.join(" ")
}

/// Lines that are ticks, however they end; and no line at all.
fn ends() -> Vec<Run> {
    let line = line();
    let blanks = " ".repeat(70_000);
    vec![
        Run::new("site.bin", "no_lines.txt", ""),
        last("no_newline.txt", &line),
        between("carriage_return.txt", format!("{line}\r")),
        between("blank_behind.txt", format!("{line} ")),
        between("many_blanks_behind.txt", format!("{line}{blanks}")),
        between("blanks_and_carriage_return.txt", format!("{line}   \r")),
        last("carriage_return_no_newline.txt", &format!("{line}\r")),
        last("blanks_no_newline.txt", &format!("{line}  ")),
        last("blanks_and_carriage_return_no_newline.txt", &format!("{line}  \r")),
        between("leading_zeros.txt", line.replace("215700", &format!("{}215700", "0".repeat(70_000)))),
    ]
}

/// Every word is a number, and there are too few or too many.
fn counts() -> Vec<Run> {
    let line = line();
    vec![
        between("empty_line.txt", ""),
        last("empty_last_line.txt", "\n"),
        between("only_carriage_return.txt", "\r"),
        last("only_carriage_return_no_newline.txt", "\r"),
        between("only_blanks.txt", "   "),
        between("only_blanks_and_carriage_return.txt", "  \r"),
        last("only_blanks_no_newline.txt", "   "),
        between("one_number.txt", "2024"),
        between("too_few.txt", &line[..line.len() - 2]),
        between("too_few_blank_behind.txt", &line[..line.len() - 1]),
        between("too_many.txt", format!("{line} 0")),
        between("far_too_many.txt", format!("{line}{}", " 0".repeat(40))),
        between("words_70000.txt", format!("{line}{}", " 0".repeat(70_000 - WANTED))),
    ]
}

/// A word with a byte that is no digit.
fn no_numbers() -> Vec<Run> {
    let line = line();
    let digits = "1234567890".repeat(3);
    // in place of the o, any byte
    let bytes = |byte: u8| line.replace("2024", "2o24").bytes().map(|b| if b == b'o' { byte } else { b }).collect::<Vec<u8>>();
    vec![
        between("letter.txt", with(&[(1, "2o24")])),
        between("letter_in_last_word.txt", with(&[(WANTED, "o")])),
        between("plus.txt", format!("+{line}")),
        between("minus.txt", with(&[(6, "-1")])),
        between("preemption_letter.txt", with(&[(13, "o")])),
        between("bypass_letter.txt", with(&[(14, "o")])),
        between("point.txt", with(&[(10, "20.0")])),
        between("tab.txt", line.replace("2024 ", "2024\t")),
        between("tab_behind.txt", format!("{line}\t")),
        between("zero_byte.txt", bytes(0)),
        between("byte_200.txt", bytes(200)),
        between("byte_slash.txt", bytes(b'/')),
        between("byte_colon.txt", bytes(b':')),
        between("carriage_return_inside.txt", line.replace("2024 6 ", "2024 6\r ")),
        between("carriage_return_before.txt", format!("\r{line}")),
        between("two_carriage_returns.txt", format!("{line}\r\r")),
        between("carriage_return_and_blank.txt", format!("{line} \r ")),
        last("two_carriage_returns_no_newline.txt", &format!("{line}\r\r")),
        last("letter_no_newline.txt", &with(&[(WANTED, "o")])),
        between("digits_30_and_letter.txt", with(&[(5, &format!("{digits}o"))])),
        between("letter_and_digits_30.txt", with(&[(4, &format!("o{digits}"))])),
        between("word_70000_letter.txt", format!("{line}{} o", " 0".repeat(70_000 - WANTED - 1))),
    ]
}

/// A word of digits alone that is above its most, or just not.
fn above() -> Vec<Run> {
    let digits = "1234567890".repeat(3);
    vec![
        between("year_65536.txt", with(&[(1, "65536")])),
        between("tenth_65536.txt", with(&[(4, "65536")])),
        between("sample_65536.txt", with(&[(5, "65536")])),
        between("sample_4294967296.txt", with(&[(5, "4294967296")])),
        between("preemption_65536.txt", with(&[(13, "65536")])),
        between("bypass_65536.txt", with(&[(14, "65536")])),
        between("last_number_65536.txt", with(&[(WANTED, "65536")])),
        between("leading_zeros_65536.txt", with(&[(2, "000000065536")])),
        between("tenth_4294967296.txt", with(&[(4, "4294967296")])),
        between("tenth_of_30_digits.txt", with(&[(4, &digits)])),
        between("sample_of_30_digits.txt", with(&[(7, &digits)])),
        last("last_number_65536_no_newline.txt", &with(&[(WANTED, "65536")])),
        // just not: the ticks are refused
        between("year_65535.txt", with(&[(1, "65535")])),
        between("twice_65535.txt", with(&[(9, "65535"), (WANTED, "65535")])),
        between("tenth_4294967295.txt", with(&[(4, "4294967295")])),
    ]
}

/// An empty word.
fn empty() -> Vec<Run> {
    let line = line();
    vec![
        between("blank_before.txt", format!(" {line}")),
        between("blanks_before.txt", format!("   {line}")),
        between("two_blanks.txt", line.replace("2024 ", "2024  ")),
        between("two_blanks_before_preemption.txt", with(&[(13, " 0")])),
        between("two_blanks_before_bypass.txt", with(&[(14, " 0")])),
        between("two_blanks_before_last_word.txt", with(&[(WANTED, " 0")])),
        between("two_blanks_and_carriage_returns.txt", format!("{line}  \r\r")),
        last("two_blanks_no_newline.txt", &with(&[(WANTED, " 0")])),
    ]
}

/// More than one thing is wrong: the leftmost word decides, and the count only without one.
fn first_of_two() -> Vec<Run> {
    let line = line();
    vec![
        between("letter_then_above.txt", with(&[(6, "o"), (7, "65536")])),
        between("above_then_letter.txt", with(&[(6, "65536"), (7, "o")])),
        between("letter_then_two_blanks.txt", with(&[(6, "o"), (8, " 0")])),
        between("two_blanks_then_letter.txt", with(&[(6, " 0"), (8, "o")])),
        between("two_letters.txt", with(&[(3, "o"), (4, "o")])),
        between("letter_and_too_many.txt", format!("{} 0", with(&[(5, "o")]))),
        between("too_many_the_last_a_letter.txt", format!("{line} o")),
        between("letter_and_too_few.txt", "2024 6 o"),
        between("too_few_the_last_65536.txt", "2024 6 65536"),
        // a year of 65535 is refused only where the line is a tick
        between("year_65535_and_letter.txt", with(&[(1, "65535"), (WANTED, "o")])),
    ]
}

pub fn runs() -> Vec<Run> {
    [ends(), counts(), no_numbers(), above(), empty(), first_of_two()].into_iter().flatten().collect()
}

//! Why a site file is refused, in words. The number at fault is found from the refusal's place alone, in a list of what stands where; its
//! range by trying every value.

use crate::site::{self, count_ok, number_ok, Refused, UNUSED};
use crate::text;

/// The names of a section: as a whole, of a row, and of a row's numbers.
struct Section {
    plural: &'static str,
    row: &'static str,
    numbers: &'static [&'static str],
}

const SECTIONS: [Section; 4] = [
    Section {
        plural: "timings",
        row: "timing",
        numbers: &[
            "lanes",
            "service mode",
            "vehicles per green",
            "minimum green",
            "maximum green",
            "yellow",
            "minimum red",
            "startup warning",
            "startup green",
            "startup yellow",
            "startup red",
            "shutdown red",
            "maximum pre-metering green",
            "minimum pre-metering green",
            "mainline lanes",
            "priority lane",
            "bypass timeout",
        ],
    },
    Section { plural: "plan entries", row: "plan entry", numbers: &["days", "start minute", "mode", "rate", "level table"] },
    Section { plural: "holidays", row: "holiday", numbers: &["kind", "month", "day or week", "weekday", "Sunday move"] },
    Section { plural: "levels", row: "level", numbers: &["table", "flow", "occupancy", "speed", "rate"] },
];

/// What a number of the file is: the count of a section, or a number of one of its rows.
#[derive(Clone, Copy)]
enum Label {
    Count { section: usize },
    Number { section: usize, row: usize, column: usize },
}

impl Label {
    /// The count of plan entries; plan entry 2, start minute.
    fn words(self) -> String {
        match self {
            Label::Count { section } => format!("the count of {}", SECTIONS[section].plural),
            // the timings are one row, and each of its numbers is a timing
            Label::Number { section: 0, column, .. } => format!("timing {}, {}", column + 1, SECTIONS[0].numbers[column]),
            Label::Number { section, row, column } => {
                let names = &SECTIONS[section];
                format!("{} {}, {}", names.row, row + 1, names.numbers[column])
            }
        }
    }
}

/// The whole numbers of a file.
fn numbers(file: &[u8]) -> Vec<u16> {
    file.chunks_exact(2).map(|two| u16::from_be_bytes([two[0], two[1]])).collect()
}

/// What each number of a file is, the announced ones that are missing too; right up to the first count that is missing or wrong.
fn labels(numbers: &[u16]) -> Vec<Label> {
    let mut out = Vec::new();
    for (section, names) in SECTIONS.iter().enumerate() {
        let count = numbers.get(out.len()).map_or(0, |count| *count as usize);
        let rows = if section == 0 { 1 } else { count };
        let columns = 0..names.numbers.len();
        out.push(Label::Count { section });
        out.extend((0..rows).flat_map(|row| columns.clone().map(move |column| Label::Number { section, row, column })));
    }
    out
}

/// The values that are allowed, each tried: from the least to the greatest, and 65535.
fn allowed(mut ok: impl FnMut(u16) -> bool) -> String {
    let values: Vec<u16> = (0..UNUSED).filter(|value| ok(*value)).collect();
    let range = text::range(values[0] as u32, values[values.len() - 1] as u32);
    if ok(UNUSED) {
        return range + " or 65535";
    }
    range
}

/// What is wrong with number k of the file.
fn wrong(numbers: &[u16], k: usize, label: Label) -> String {
    let value = numbers[k];
    match label {
        Label::Count { section } => {
            let allowed = allowed(|count| count_ok(section, count));
            format!("{value} {}, allowed {allowed}", SECTIONS[section].plural)
        }
        Label::Number { section, column, .. } => {
            let mut row = numbers[k - column..=k].to_vec();
            let allowed = allowed(|value| {
                row[column] = value;
                number_ok(section, &row, column)
            });
            format!("{} {value}, allowed {allowed}", label.words())
        }
    }
}

fn line(file: &[u8], name: &str, refused: Refused) -> String {
    let numbers = numbers(file);
    let labels = labels(&numbers);
    let what = match refused.number {
        // the first number that is not whole
        1 => format!("{} is missing", labels[numbers.len()].words()),
        7 => "nothing may follow the levels".to_string(),
        _ => wrong(&numbers, refused.place / 2, labels[refused.place / 2]),
    };
    text::explanation(refused.number, &what, &format!("{name}, byte {}", refused.place))
}

/// The line that explains why the file of that name is refused; nothing where it is not.
pub fn of(file: &[u8], name: &str) -> String {
    site::read(file).err().map_or(String::new(), |refused| line(file, name, refused))
}

//! What document 02 says of joining, held to an answer by other means than those that gave it: numbers against ranges, day masks in place
//! of sets, and the joined list walked beside both others.

use crate::joining::{Entry, List, MOST};
use std::collections::BTreeMap;

fn row_in_range(row: &[u16]) -> bool {
    let [days, start, mode, rate, table] = *row else {
        return false;
    };
    let metering = (150..=1800).contains(&rate);
    let of_mode = match mode {
        0 | 1 => rate == 0 && table == 0,
        2 => metering && table == 0,
        3 => metering && (1..=4).contains(&table),
        _ => false,
    };
    (1..=255).contains(&days) && start < 24 * 60 && of_mode
}

/// The rows in use; none if "no file could give" the list.
fn rows(list: &List) -> Option<Vec<Entry>> {
    let (used, beyond) = list.numbers.split_at_checked(5 * list.count as usize)?;
    let sound = used.chunks(5).all(row_in_range) && beyond.iter().all(|number| *number == 0);
    sound.then(|| used.chunks(5).map(|row| row.try_into().expect("five numbers")).collect())
}

/// "An entry of the first is dropped if one entry of the second has the same start and all its days."
fn is_dropped(entry: &Entry, second: &[Entry]) -> bool {
    second.iter().any(|by| by[1] == entry[1] && by[0] | entry[0] == by[0])
}

/// Each place of the first that is dropped, and none besides, with that of the second's last entry which does it alone.
pub fn hold_dropped(first: &[Entry], second: &[Entry], dropped: &BTreeMap<usize, usize>) {
    for (place, entry) in (1..).zip(first) {
        // the farthest place from which on one of the second does it
        let by = (1..=second.len()).rev().find(|from| is_dropped(entry, &second[from - 1..]));
        assert_eq!(dropped.get(&place).copied(), by, "what covers entry {place} of the first list");
    }
}

/// The joined rows: those of the first that are not dropped, each met in its turn, and behind them all of the second.
fn hold_rows(first: &[Entry], second: &[Entry], joined: &[Entry]) {
    let (before, behind) = joined.split_at(joined.len().checked_sub(second.len()).expect("the second list as a whole"));
    assert_eq!(behind, second, "the second list's entries behind");
    let mut before = before.iter();
    for entry in first.iter().filter(|entry| !is_dropped(entry, second)) {
        assert_eq!(before.next(), Some(entry), "the first list's entries in filed order");
    }
    assert_eq!(before.next(), None, "no entry of the first list that is dropped");
}

/// Holds an answer, a refusal and a list, to the words of the page.
pub fn hold(first: &List, second: &List, (refusal, list): &(u8, List)) {
    let (Some(first), Some(second)) = (rows(first), rows(second)) else {
        assert_eq!((*refusal, list.count), (14, 0));
        assert!(list.numbers.iter().all(|number| *number == 0));
        return;
    };
    let many = first.len() + second.len() - first.iter().filter(|entry| is_dropped(entry, &second)).count();
    let joined = rows(list).expect("a list that a file could give");
    if many > MOST {
        assert_eq!((*refusal, joined.len()), (17, 0));
        return;
    }
    assert_eq!((*refusal, joined.len()), (0, many));
    hold_rows(&first, &second, &joined);
}

//! Type rows and their lists: what numbering rows by structure costs.

use super::members::{empty_records_in, looked_up_in, matches_in};
use super::{Ask, Family, family, numbers, plain, use_row};
use model::make::Maker;
use std::collections::HashMap;
use std::sync::OnceLock;

const AIMS: &[Ask] = &[Ask::Root];

pub fn families() -> Vec<Family> {
    vec![
        family(
            "functions over lists that overlap",
            AIMS,
            &[
                ("functions", 1, 2040, 1020),
                ("length", 1, 2040, 1000),
                ("period", 1, 32, 1),
                ("classes", 1, 34, 1),
                ("step", 1, 8, 1),
            ],
            overlapping,
        ),
        family(
            "functions over windows of marks",
            AIMS,
            &[
                ("functions", 1, 2040, 1000),
                ("length", 1, 2040, 1000),
                ("first", 0, 8000, 990),
                ("gap", 1, 4000, 4000),
                ("growth", 0, 200, 0),
                ("step", 1, 8, 1),
                ("turned", 0, 1, 0),
            ],
            marks,
        ),
        family(
            "functions over lists of one fingerprint",
            AIMS,
            &[("groups", 1, 20, 9), ("windows", 1, 1400, 138), ("length", 600, 1400, 800)],
            fingerprints,
        ),
        family(
            "functions over lists that end together",
            AIMS,
            &[("functions", 1, 2040, 1000), ("classes", 1, 34, 34)],
            suffixes,
        ),
        family(
            "lists that differ in one item",
            AIMS,
            &[("lists", 1, 2046, 1020), ("length", 1, 4000, 7), ("place", 0, 4000, 6), ("kind", 0, 3, 0)],
            near_equal,
        ),
        family("three items, the middle one differs", AIMS, &[("lists", 1, 2046, 2044)], |p| {
            near_equal(&[p[0], 3, 1, 0])
        }),
        family(
            "records of one fingerprint",
            AIMS,
            &[("records", 1, 1500, 300), ("length", 1, 400, 12)],
            record_fingerprints,
        ),
        family(
            "records over lists that overlap",
            AIMS,
            &[("records", 1, 2040, 1000), ("length", 1, 2040, 1000), ("period", 1, 4000, 1000), ("step", 1, 8, 1)],
            record_windows,
        ),
        family(
            "rows over one list",
            AIMS,
            &[("rows", 1, 2046, 2040), ("length", 0, 8000, 4000), ("kind", 0, 2, 1)],
            shared,
        ),
        family("rows of one bucket", AIMS, &[("lists", 1, 2040, 1200), ("bucket", 0, 4092, 17)], bucket),
        family(
            "functions over windows of marks, and fields looked up",
            AIMS,
            &[
                ("functions", 1, 2040, 990),
                ("length", 1, 2040, 990),
                ("fields", 1, 4000, 3050),
                ("deep", 1, 62, 62),
                ("times", 1, 2000, 32),
            ],
            |p| looked_up_in(marked_rows([p[0], p[1], p[1], 4000, 0, 1, 0]), [p[2], p[3], p[4], 0, 0, 0, 0]),
        ),
        family(
            "functions over windows of marks, and empty records",
            AIMS,
            &[
                ("functions", 1, 2040, 990),
                ("length", 1, 2040, 990),
                ("outer", 0, 2000, 14),
                ("inner", 0, 4000, 190),
                ("alone", 0, 2000, 400),
            ],
            |p| empty_records_in(marked_rows([p[0], p[1], p[1], 4000, 0, 1, 0]), [p[2], p[3], p[4]]),
        ),
        family(
            "functions over lists that overlap, and matches",
            AIMS,
            &[
                ("functions", 1, 2040, 990),
                ("length", 1, 2040, 990),
                ("variants", 1, 4000, 1200),
                ("matches", 1, 1300, 620),
                ("arms", 0, 2000, 0),
            ],
            |p| matches_in(overlapping_rows([p[0], p[1], 1, 1, 1]), [p[2], p[3], p[4], 0, 0, 1]),
        ),
        family("records that each hold the row before", AIMS, &[("rows", 1, 2040, 1630), ("times", 1, 30, 2)], doubled),
    ]
}

/// Rows of so many classes, before which no list has to stop.
fn leading(maker: &mut Maker, rows: usize, classes: usize) {
    for row in 0..rows {
        plain(maker, row % classes);
    }
}

/// Every word is a type and a count that fits; each list starts `step` words after the one before.
fn overlapping(p: &[usize]) -> Maker {
    let mut maker = overlapping_rows(numbers(p));
    use_row(&mut maker, 0);
    maker
}

fn overlapping_rows([functions, length, period, classes, step]: [usize; 5]) -> Maker {
    let mut maker = Maker::new();
    leading(&mut maker, length + period, classes);
    maker.words = (0..step * functions + length + period).map(|i| (length + i % period) as u16).collect();
    for k in 0..functions {
        maker.type_row(6, 0, k * step);
    }
    maker
}

/// The places of marks: the first, and each so many after the one before, a little more each time.
fn places(first: usize, gap: usize, growth: usize, end: usize) -> Vec<usize> {
    let (mut at, mut by) = (first, gap);
    let mut all = Vec::new();
    while at < end {
        all.push(at);
        at += by;
        by += growth;
    }
    all
}

/// A long run of one word with few others in it; lists are windows of the run, and differ in where a mark stands.
fn marks(p: &[usize]) -> Maker {
    let mut maker = marked_rows(numbers(p));
    use_row(&mut maker, 0);
    maker
}

fn marked_rows([functions, length, first, gap, growth, step, turned]: [usize; 7]) -> Maker {
    let mut maker = Maker::new();
    leading(&mut maker, length + 2, 2);
    let end = step * functions + length + 2;
    maker.words = vec![length as u16; end];
    for at in places(first, gap, growth, end) {
        maker.words[at] += 1;
    }
    for k in 0..functions {
        let window = if turned == 1 { functions - 1 - k } else { k };
        maker.type_row(6, 0, window * step);
    }
    maker
}

/// The fingerprint of lists that was linear: h * 65599 + name * 2^32 + number, below this prime.
const PRIME: i64 = 4_294_967_291;
const FACTOR: i64 = 65_599;

/// How much less a number of a mark may be.
const LESS: i64 = 600;

/// Marks that change no fingerprint: how much less than the run's each of four numbers is. Two are tried, the other two
/// looked up.
fn unseen() -> &'static [[i64; 4]] {
    static FOUND: OnceLock<Vec<[i64; 4]>> = OnceLock::new();
    FOUND.get_or_init(|| {
        let mut halves = HashMap::new();
        for c in 0..=LESS {
            for d in 0..=LESS {
                halves.insert(c * FACTOR + d, [c, d]);
            }
        }
        let mut all = Vec::new();
        for a in 0..=LESS {
            for b in 0..=LESS {
                let upper = (a * FACTOR + b) % PRIME * FACTOR % PRIME * FACTOR % PRIME;
                if let Some([c, d]) = halves.get(&((PRIME - upper) % PRIME)) {
                    all.push([a, b, *c, *d]);
                }
            }
        }
        all.retain(|mark| *mark != [0; 4]);
        all
    })
}

/// Lists of one fingerprint that differ late: groups of windows over a run of one word, a mark at the end of each group's.
/// Marks of different groups differ.
fn fingerprints(p: &[usize]) -> Maker {
    let [groups, windows, length] = numbers(p);
    let mut maker = Maker::new();
    maker.type_row(1, 0, 0);
    // Rows that differ, so that the number of each is its own.
    while maker.types.len() <= length {
        let variable = maker.types.len();
        maker.type_row(7, variable, 0);
    }
    maker.words = vec![length as u16; groups * (length + 1) + windows + length];
    for group in 0..groups {
        let start = group * (length + 1);
        let mark = unseen()[group % unseen().len()];
        for (place, less) in mark.iter().enumerate() {
            maker.words[start + length - 3 + place] -= *less as u16;
        }
        for window in 0..windows.min(length - 4) {
            maker.type_row(6, 0, start + window);
        }
    }
    use_row(&mut maker, 0);
    maker
}

/// Each list is the end of the one before: every word is a count, and one less than the word before it.
fn suffixes(p: &[usize]) -> Maker {
    let [functions, classes] = numbers(p);
    let mut maker = Maker::new();
    leading(&mut maker, functions + 1, classes);
    maker.words = (0..=functions).map(|k| (functions - k) as u16).collect();
    for k in 0..functions {
        maker.type_row(6, 0, k);
    }
    use_row(&mut maker, 0);
    maker
}

/// Lists apart from each other that differ in the item at one place: the row before.
fn near_equal(p: &[usize]) -> Maker {
    let [lists, length, place, kind] = numbers(p);
    let mut maker = Maker::new();
    maker.type_row(1, 0, 0);
    let place = place.min(length - 1);
    for j in 0..lists {
        match kind {
            0 => {
                let items: Vec<usize> = (0..length).map(|i| if i == place { j } else { 0 }).collect();
                let list = maker.singles(&items);
                maker.type_row(6, 0, list);
            }
            1 => {
                let items: Vec<(usize, usize)> = (0..length).map(|i| (i, if i == place { j } else { 0 })).collect();
                let list = maker.pairs(&items);
                maker.type_row(5, 0, list);
            }
            _ => {
                // Names that differ: a record, or a record variable.
                let name = |i: usize| if i == place { length + j } else { i };
                let items: Vec<(usize, usize)> = (0..length).map(|i| (name(i), 0)).collect();
                let list = maker.pairs(&items);
                maker.type_row(if kind == 2 { 5 } else { 10 }, 0, list);
            }
        }
    }
    use_row(&mut maker, 0);
    maker
}

/// Record lists where a name one more and a number five less make the same fingerprint: which, is told by the list's number
/// in the last items.
fn record_fingerprints(p: &[usize]) -> Maker {
    let [records, length] = numbers(p);
    let mut maker = Maker::new();
    maker.type_row(1, 0, 0);
    while maker.types.len() < 6 {
        let variable = maker.types.len();
        maker.type_row(7, variable, 0);
    }
    for j in 0..records {
        let item = |i: usize| {
            let bit = (length - 1 - i < 16) && (j >> (length - 1 - i)) & 1 == 1;
            if bit { (2 * i + 1, 0) } else { (2 * i, 5) }
        };
        let items: Vec<(usize, usize)> = (0..length).map(item).collect();
        let list = maker.pairs(&items);
        maker.type_row(5, 0, list);
    }
    use_row(&mut maker, 0);
    maker
}

/// Record lists that overlap: each type is the count of the next list, and the names come round.
fn record_windows(p: &[usize]) -> Maker {
    let [records, length, period, step] = numbers(p);
    let mut maker = Maker::new();
    leading(&mut maker, length + 1, 2);
    let period = period.max(length);
    for i in 0..step * records + length + 1 {
        maker.words.extend([length as u16, (i % period) as u16]);
    }
    for k in 0..records {
        maker.type_row(5, 0, 2 * k * step);
    }
    use_row(&mut maker, 0);
    maker
}

/// Many rows of one kind over one list.
fn shared(p: &[usize]) -> Maker {
    let [rows, length, kind] = numbers(p);
    let mut maker = Maker::new();
    maker.type_row(1, 0, 0);
    let list = match kind {
        0 => maker.singles(&vec![0; length]),
        _ => maker.pairs(&(0..length).map(|name| (name, 0)).collect::<Vec<_>>()),
    };
    for row in 0..rows {
        match kind {
            // Functions that differ in what they return.
            0 => maker.type_row(6, row, list),
            1 => maker.type_row(5, 0, list),
            _ => maker.type_row(10, row, list),
        };
    }
    use_row(&mut maker, 0);
    maker
}

/// Rows that fall into one bucket by (kind * 16384 + first) * 2048 + list, of 4,093.
fn bucket(p: &[usize]) -> Maker {
    let [lists, bucket] = numbers(p);
    let mut maker = Maker::new();
    maker.type_row(1, 0, 0);
    // Each of these has a list of its own, which has the row's number.
    for row in 0..lists {
        let list = maker.singles(&[row]);
        maker.type_row(6, 0, list);
    }
    let key = |kind: usize, first: usize, list: usize| (kind * 16384 + first) * 2048 + list;
    // Of functions the list, of record variables an empty one: the first is free.
    for row in 1..=lists {
        let list = 2 * (row - 1);
        for first in 0..row {
            if maker.types.len() < 2047 && first != 0 && key(6, first, row) % 4093 == bucket {
                maker.type_row(6, first, list);
            }
        }
    }
    use_row(&mut maker, 0);
    maker
}

/// Records that each hold the row before so many times.
fn doubled(p: &[usize]) -> Maker {
    let [rows, times] = numbers(p);
    let mut maker = Maker::new();
    maker.type_row(1, 0, 0);
    for row in 0..rows {
        let list = maker.pairs(&(0..times).map(|name| (name, row)).collect::<Vec<_>>());
        maker.type_row(5, 0, list);
    }
    use_row(&mut maker, rows);
    maker
}

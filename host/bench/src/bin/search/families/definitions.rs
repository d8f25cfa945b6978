//! Definitions and what they lead to: what 40 and 41 cost.

use super::{Ask, Family, family, numbers, plain};
use model::make::Maker;
use model::random::Random;

const AIMS: &[Ask] = &[Ask::Types];

/// Whether a definition comes after all others that leads to itself, so that all are asked whether they do.
const ROUND: super::Parameter = ("round", 0, 1, 1);

pub fn families() -> Vec<Family> {
    vec![
        family(
            "definitions over lists that overlap",
            AIMS,
            &[("definitions", 1, 512, 511), ("length", 1, 2046, 2000), ("classes", 1, 34, 1), ("step", 1, 8, 1), ROUND],
            |p| round(overlapping, p),
        ),
        family(
            "enums over lists that overlap",
            AIMS,
            &[("definitions", 1, 512, 511), ("length", 1, 4000, 3001), ("step", 1, 8, 1), ROUND],
            |p| round(overlapping_enums, p),
        ),
        family("each definition leads to all after it", AIMS, &[("definitions", 1, 512, 511), ROUND], |p| {
            round(triangle, p)
        }),
        family(
            "definitions over one list",
            AIMS,
            &[
                ("definitions", 1, 512, 511),
                ("length", 0, 4080, 4070),
                ("kind", 0, 1, 0),
                ("fields", 0, 2000, 0),
                ROUND,
            ],
            |p| round(one_list, p),
        ),
        family(
            "definitions in a chain",
            AIMS,
            &[("definitions", 1, 512, 511), ("between", 0, 10, 2), ("down", 0, 1, 0), ("closed", 0, 1, 0), ROUND],
            |p| round(chain, p),
        ),
        family(
            "definitions that lead to several",
            AIMS,
            &[
                ("definitions", 1, 512, 511),
                ("degree", 1, 400, 7),
                ("kind", 0, 1, 1),
                ("seed", 0, 1000, 1),
                ("back", 0, 1, 0),
                ROUND,
            ],
            |p| round(several, p),
        ),
        family(
            "variants over field lists that overlap",
            AIMS,
            &[
                ("definitions", 1, 512, 1),
                ("variants", 1, 4000, 2000),
                ("length", 1, 2046, 2000),
                ("classes", 1, 34, 1),
                ROUND,
            ],
            |p| round(field_lists, p),
        ),
        family(
            "variants whose field lists are their own words",
            AIMS,
            &[
                ("variants", 100, 4080, 4080),
                ("split", 50, 4000, 2000),
                ("low", 3, 500, 500),
                ("high", 3, 1020, 1020),
                ("records", 0, 1046, 1046),
                ("down", 0, 1, 0),
                ROUND,
            ],
            |p| round(own_words, p),
        ),
        family(
            "fields of records that hold records",
            AIMS,
            &[("definitions", 1, 512, 511), ("rows", 1, 2040, 1500), ("times", 1, 40, 1), ROUND],
            |p| round(nested_records, p),
        ),
    ]
}

/// One list of variants whose field lists start at the names of the same list, so that all of them overlap; record types and
/// definitions over parts of it.
fn own_words(p: &[usize]) -> Maker {
    let [variants, split, low, high, records, down] = numbers(p);
    let start = |i: usize| {
        let room = if i < split { low } else { high } - 1;
        1 + 2 * if down == 1 { room - i % room } else { 1 + i % room }
    };
    let mut maker = Maker::new();
    maker.pairs(&(0..variants).map(|i| (i, start(i))).collect::<Vec<_>>());
    for _ in 0..2 * low + 1 {
        maker.type_row(1, 0, 0);
    }
    let parts = |maker: &Maker, below: usize| -> Vec<usize> {
        let fits = |at: &usize| at + 2 * usize::from(maker.words[*at]) <= 2 * below;
        (1..=below.min(variants)).map(|i| 2 * i).filter(fits).collect()
    };
    let inner = parts(&maker, split);
    for k in 0..if inner.is_empty() { 0 } else { records } {
        maker.type_row(5, 0, inner[k * 379 % inner.len()]);
    }
    let all = parts(&maker, variants);
    maker.definition(0, 0, 0);
    for k in 1..if all.is_empty() { 1 } else { 511 } {
        maker.definition(k % 2, 0, all[k * 379 % all.len()]);
    }
    maker
}

/// A family's pack, and where the last parameter says so a definition after all others that leads to itself.
fn round(make: fn(&[usize]) -> Maker, p: &[usize]) -> Maker {
    let (round, own) = p.split_last().expect("at least whether it goes round");
    let mut maker = make(own);
    if *round == 1 {
        let none = maker.singles(&[]);
        let itself = maker.type_row(4, maker.definitions.len(), none);
        let list = maker.pairs(&[(0, itself)]);
        maker.definition(1, 0, list);
    }
    maker
}

/// Record definitions: each type is the count of the next list. Names come round after a list's length.
fn overlapping(p: &[usize]) -> Maker {
    let [definitions, length, classes, step] = numbers(p);
    let mut maker = Maker::new();
    for row in 0..=length {
        plain(&mut maker, row % classes);
    }
    for i in 0..step * definitions + length + 1 {
        maker.words.extend([length as u16, i as u16]);
    }
    for d in 0..definitions {
        maker.definition(1, 0, 2 * d * step);
    }
    maker
}

/// Enums: each variant's list of fields starts at the word that the count names, and is empty.
fn overlapping_enums(p: &[usize]) -> Maker {
    let [definitions, length, step] = numbers(p);
    // The word where the fields start is a name's place.
    let length = length | 1;
    let mut maker = Maker::new();
    plain(&mut maker, 0);
    for i in 0..step * definitions + length + 1 {
        maker.words.extend([length as u16, (i + 1) as u16]);
    }
    if length < maker.words.len() {
        maker.words[length] = 0;
    }
    for d in 0..definitions {
        maker.definition(0, 0, 2 * d * step);
    }
    maker
}

/// Type j is the definition that has the list whose count is j: it leads to all types below j.
fn triangle(p: &[usize]) -> Maker {
    let [definitions] = numbers(p);
    let mut maker = Maker::new();
    for i in 0..definitions {
        maker.words.extend([(definitions - 1 - i) as u16, i as u16]);
    }
    let none = maker.singles(&[]);
    for row in 0..definitions {
        maker.type_row(4, definitions - 1 - row, none);
    }
    for d in 0..definitions {
        maker.definition(1, 0, 2 * d);
    }
    maker
}

fn one_list(p: &[usize]) -> Maker {
    let [definitions, length, kind, fields] = numbers(p);
    let mut maker = Maker::new();
    plain(&mut maker, 0);
    let second = if kind == 0 { maker.singles(&vec![0; fields]) } else { 0 };
    let list = maker.pairs(&(0..length).map(|name| (name, second)).collect::<Vec<_>>());
    for _ in 0..definitions {
        maker.definition(kind, 0, list);
    }
    maker
}

fn chain(p: &[usize]) -> Maker {
    let [definitions, between, down, closed] = numbers(p);
    let end = (closed == 1).then(|| if down == 1 { definitions - 1 } else { 0 });
    model::deepest::definitions(definitions, between, down == 1, end)
}

/// Each leads to some others, only to later ones or only to earlier ones, by fields or by variants.
fn several(p: &[usize]) -> Maker {
    let [definitions, degree, kind, seed, back] = numbers(p);
    let mut random = Random::new(seed as u64);
    let mut maker = Maker::new();
    let none = maker.singles(&[]);
    for d in 0..definitions {
        maker.type_row(4, d, none);
    }
    for d in 0..definitions {
        let to = |random: &mut Random| {
            if back == 1 { (d > 0).then(|| random.below(d)) } else { later(random, d, definitions) }
        };
        let others: Vec<usize> = (0..degree).filter_map(|_| to(&mut random)).collect();
        if kind == 1 {
            let list = maker.pairs(&others.iter().enumerate().map(|(name, t)| (name, *t)).collect::<Vec<_>>());
            maker.definition(1, 0, list);
        } else {
            let fields = maker.singles(&others);
            let list = maker.pairs(&[(0, fields)]);
            maker.definition(0, 0, list);
        }
    }
    maker
}

fn later(random: &mut Random, d: usize, definitions: usize) -> Option<usize> {
    (d + 1 < definitions).then(|| d + 1 + random.below(definitions - d - 1))
}

/// Enums over one list of variants, whose field lists overlap: every word of them is a type and a count.
fn field_lists(p: &[usize]) -> Maker {
    let [definitions, variants, length, classes] = numbers(p);
    let mut maker = Maker::new();
    for row in 0..=length {
        plain(&mut maker, row % classes);
    }
    let list = maker.pairs(&(0..variants).map(|v| (v, 2 * variants + 1 + v)).collect::<Vec<_>>());
    maker.words.extend(vec![length as u16; variants + length]);
    for _ in 0..definitions {
        maker.definition(0, 0, list);
    }
    maker
}

/// Record types that each hold the one before so many times; each definition has one of them as its field, from the last
/// down.
fn nested_records(p: &[usize]) -> Maker {
    let [definitions, rows, times] = numbers(p);
    let mut maker = Maker::new();
    plain(&mut maker, 0);
    for row in 0..rows {
        let list = maker.pairs(&(0..times).map(|name| (name, row)).collect::<Vec<_>>());
        maker.type_row(5, 0, list);
    }
    for d in 0..definitions {
        let list = maker.pairs(&[(0, rows.saturating_sub(d))]);
        maker.definition(1, 0, list);
    }
    maker
}

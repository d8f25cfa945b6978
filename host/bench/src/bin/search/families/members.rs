//! Records, fields and matches: what looking up names costs.

use super::{Ask, Family, family, numbers};
use model::make::{Maker, Pattern};

const AIMS: &[Ask] = &[Ask::Root];

pub fn families() -> Vec<Family> {
    vec![
        family(
            "empty records",
            AIMS,
            &[("outer", 0, 2040, 20), ("inner", 0, 4000, 190), ("alone", 0, 2040, 0)],
            empty_records,
        ),
        family(
            "a record's fields as given",
            AIMS,
            &[("fields", 1, 4080, 2040), ("given", 0, 4080, 2040), ("order", 0, 5, 0)],
            given,
        ),
        family("records of one definition", AIMS, &[("fields", 0, 2000, 10), ("records", 1, 2040, 370)], whole_records),
        family(
            "fields looked up",
            AIMS,
            &[
                ("fields", 1, 4080, 4050),
                ("deep", 1, 62, 62),
                ("times", 1, 2000, 32),
                ("which", 0, 4, 0),
                ("falling", 0, 1, 0),
                ("elsewhere", 0, 8000, 0),
                ("after", 0, 1, 0),
            ],
            looked_up,
        ),
        family(
            "a name that stands elsewhere",
            AIMS,
            &[
                ("deep", 1, 62, 62),
                ("times", 1, 2000, 32),
                ("elsewhere", 0, 8100, 8000),
                ("after", 0, 1, 1),
                ("fields", 1, 4000, 3),
            ],
            |p| looked_up(&[p[4], p[0], p[1], 0, 0, p[2], p[3]]),
        ),
        family(
            "fields of a record type",
            AIMS,
            &[("fields", 1, 4080, 3570), ("times", 1, 2040, 1020), ("which", 0, 3, 0), ("elsewhere", 0, 8000, 0)],
            of_record_type,
        ),
        family(
            "matches",
            AIMS,
            &[
                ("variants", 1, 4080, 2000),
                ("matches", 1, 1300, 670),
                ("arms", 0, 2040, 0),
                ("which", 0, 4, 0),
                ("guarded", 0, 1, 0),
                ("bare", 0, 1, 0),
            ],
            matches,
        ),
        family(
            "guarded arms of one variant",
            AIMS,
            &[("variants", 1, 4000, 2), ("arms", 1, 2044, 2035), ("which", 0, 4, 1)],
            |p| matches(&[p[0], 1, p[1], p[2], 1, 0]),
        ),
        family(
            "few arms on many variants",
            AIMS,
            &[("variants", 1, 4080, 4000), ("arms", 0, 2040, 20), ("which", 0, 4, 0), ("bare", 0, 1, 0)],
            |p| matches(&[p[0], 1, p[1], p[2], 0, p[3]]),
        ),
        family(
            "arms of a name that stands elsewhere",
            AIMS,
            &[("variants", 1, 4000, 2), ("arms", 0, 2040, 1000), ("which", 0, 3, 0), ("elsewhere", 0, 8000, 4000)],
            |p| {
                let mut filler = Maker::new();
                filler.words = vec![asked(p[2], p[0], 0) as u16; p[3]];
                matches_in(filler, [p[0], 1, p[1], p[2], 0, 0])
            },
        ),
        family(
            "empty records of names that stand elsewhere",
            AIMS,
            &[("outer", 0, 2040, 60), ("inner", 0, 4000, 20), ("elsewhere", 0, 8000, 4000), ("names", 1, 4000, 20)],
            |p| {
                let mut filler = Maker::new();
                filler.words = (0..p[2]).map(|i| (i % p[3]) as u16).collect();
                empty_records_in(filler, [p[0], p[1], 0])
            },
        ),
        family(
            "arms with fields",
            AIMS,
            &[("variants", 1, 3900, 2000), ("fields", 0, 200, 1), ("arms", 1, 254, 250), ("which", 0, 4, 0)],
            payloads,
        ),
    ]
}

/// The type row of definition 0 and unit before it.
fn begun() -> (Maker, usize, usize, usize) {
    begun_in(Maker::new())
}

/// The same after other rows and lists.
fn begun_in(mut maker: Maker) -> (Maker, usize, usize, usize) {
    let none = maker.singles(&[]);
    let unit = maker.type_row(1, 0, 0);
    let first = maker.type_row(4, 0, none);
    (maker, none, unit, first)
}

/// Statements: records of so many fields, each an empty record; then empty records alone.
fn empty_records(p: &[usize]) -> Maker {
    empty_records_in(Maker::new(), numbers(p))
}

pub fn empty_records_in(maker: Maker, [outer, inner, alone]: [usize; 3]) -> Maker {
    let (mut maker, none, unit, empty) = begun_in(maker);
    maker.definition(1, 0, none);
    let fields = maker.pairs(&(0..inner).map(|name| (name, empty)).collect::<Vec<_>>());
    maker.definition(1, 0, fields);
    let record = |maker: &mut Maker| maker.expression(6, 0, 0, none, 0);
    let mut statements = Vec::new();
    for _ in 0..outer {
        let given: Vec<(usize, usize)> = (0..inner).map(|name| (name, record(&mut maker))).collect();
        statements.push(maker.record(1, &given));
    }
    for _ in 0..alone {
        statements.push(record(&mut maker));
    }
    let body = maker.block(&statements, None);
    maker.root(body, unit, &[]);
    maker
}

/// One record: its fields as given backward, forward, all the first, all the last, none of the definition's, every second.
fn given(p: &[usize]) -> Maker {
    let [fields, given, order] = numbers(p);
    let (mut maker, _, unit, record) = begun();
    let list = maker.pairs(&(0..fields).map(|name| (name, unit)).collect::<Vec<_>>());
    maker.definition(1, 0, list);
    let name = |i: usize| match order {
        0 => fields.max(given) - 1 - i,
        1 => i,
        2 => 0,
        3 => fields - 1,
        4 => fields + i,
        _ => 2 * i,
    };
    let all: Vec<(usize, usize)> = (0..given).map(|i| (name(i), maker.literal(7))).collect();
    let body = maker.record(0, &all);
    maker.root(body, record, &[]);
    maker
}

/// Statements: records of one definition, all fields given backward.
fn whole_records(p: &[usize]) -> Maker {
    let [fields, records] = numbers(p);
    let (mut maker, _, unit, _) = begun();
    let list = maker.pairs(&(0..fields).map(|name| (name, unit)).collect::<Vec<_>>());
    maker.definition(1, 0, list);
    let statements: Vec<usize> = (0..records)
        .map(|_| {
            let all: Vec<(usize, usize)> = (0..fields).rev().map(|name| (name, maker.literal(7))).collect();
            maker.record(0, &all)
        })
        .collect();
    let body = maker.block(&statements, None);
    maker.root(body, unit, &[]);
    maker
}

/// Which of so many names is asked for the k-th time: the last, the first, the middle, another each time, or the one that is
/// the number of the fields' type, so that it stands beside each name.
fn asked(which: usize, names: usize, k: usize) -> usize {
    match which {
        0 => names - 1,
        1 => 0,
        2 => names / 2,
        3 => k * 7919 % names,
        _ => 1 % names,
    }
}

/// Statements: so many times a field of a field and so on, of a definition whose fields are all of its own type. The name
/// that is asked for stands at other words too, before or after the list.
fn looked_up(p: &[usize]) -> Maker {
    looked_up_in(Maker::new(), numbers(p))
}

pub fn looked_up_in(maker: Maker, [fields, deep, times, which, falling, elsewhere, after]: [usize; 7]) -> Maker {
    let (mut maker, _, unit, record) = begun_in(maker);
    let filler = vec![asked(which, fields, 0) as u16; elsewhere];
    if after == 0 {
        maker.words.extend(&filler);
    }
    let name = |i: usize| if falling == 1 { fields - 1 - i } else { i };
    let list = maker.pairs(&(0..fields).map(|i| (name(i), record)).collect::<Vec<_>>());
    maker.definition(1, 0, list);
    let mut k = 0;
    let mut statements = Vec::new();
    for _ in 0..times {
        let mut node = maker.slot(0);
        for _ in 0..deep {
            node = maker.field(node, asked(which, fields, k));
            k += 1;
        }
        statements.push(node);
    }
    let body = maker.block(&statements, None);
    maker.root(body, unit, &[(0, record)]);
    if after == 1 {
        maker.words.extend(&filler);
    }
    maker
}

/// Statements: so many times a field of a record type, which no definition names.
fn of_record_type(p: &[usize]) -> Maker {
    let [fields, times, which, elsewhere] = numbers(p);
    let mut maker = Maker::new();
    let unit = maker.type_row(1, 0, 0);
    let list = maker.pairs(&(0..fields).map(|name| (name, unit)).collect::<Vec<_>>());
    let record = maker.type_row(5, 0, list);
    maker.words.extend(vec![asked(which, fields, 0) as u16; elsewhere]);
    let statements: Vec<usize> = (0..times)
        .map(|k| {
            let of = maker.slot(0);
            maker.field(of, asked(which, fields, k))
        })
        .collect();
    let body = maker.block(&statements, None);
    maker.root(body, unit, &[(0, record)]);
    maker
}

/// Statements: so many matches on one enum, each with so many arms and `_`. Bare bodies are numbers of no type yet.
fn matches(p: &[usize]) -> Maker {
    matches_in(Maker::new(), numbers(p))
}

pub fn matches_in(maker: Maker, [variants, matches, arms, which, guarded, bare]: [usize; 6]) -> Maker {
    let (mut maker, none, unit, enumeration) = begun_in(maker);
    let list = maker.pairs(&(0..variants).map(|name| (name, none)).collect::<Vec<_>>());
    maker.definition(0, 0, list);
    let literal = if bare == 1 { 5 } else { 7 };
    let statements: Vec<usize> = (0..matches)
        .map(|_| {
            let examinee = maker.slot(0);
            let mut all = Vec::new();
            for k in 0..arms {
                let guard = (guarded == 1).then(|| maker.literal(4));
                all.push((Pattern::Variant(asked(which, variants, k), None), guard, maker.literal(literal)));
            }
            all.push((Pattern::Underscore, None, maker.literal(literal)));
            maker.match_expr(examinee, &all)
        })
        .collect();
    let body = maker.block(&statements, None);
    maker.root(body, unit, &[(0, enumeration)]);
    maker
}

/// A match whose arms open slots: variants over one list of field types.
fn payloads(p: &[usize]) -> Maker {
    let [variants, fields, arms, which] = numbers(p);
    let (mut maker, _, unit, enumeration) = begun();
    let payload = maker.singles(&vec![unit; fields]);
    let list = maker.pairs(&(0..variants).map(|name| (name, payload)).collect::<Vec<_>>());
    maker.definition(0, 0, list);
    let examinee = maker.slot(0);
    let mut all = Vec::new();
    for k in 0..arms {
        let slots: Vec<usize> = (0..fields).map(|i| 1 + k * fields + i).collect();
        let slots = (fields > 0).then(|| maker.singles(&slots));
        all.push((Pattern::Variant(asked(which, variants, k), slots), None, maker.literal(7)));
    }
    all.push((Pattern::Underscore, None, maker.literal(7)));
    let body = maker.match_expr(examinee, &all);
    maker.root(body, unit, &[(0, enumeration)]);
    maker
}

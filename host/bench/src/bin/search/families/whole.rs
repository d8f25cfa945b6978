//! Packs with many roots, for the program, which asks all of them; and values, for the order.

use super::{Ask, Family, NONE, family, numbers};
use model::make::{Maker, Pattern};
use model::random::Random;

const AIMS: &[Ask] = &[Ask::Program];

pub fn families() -> Vec<Family> {
    vec![
        family("a full accepted pack", AIMS, NONE, |_| model::full::maker()),
        family("roots of a few nodes", AIMS, &[("roots", 1, 256, 256), ("nodes", 1, 1000, 15)], small_roots),
        family(
            "roots with one list of parameters",
            AIMS,
            &[("roots", 1, 256, 256), ("parameters", 0, 256, 256)],
            parameters,
        ),
        family(
            "roots that match on one enum",
            AIMS,
            &[("roots", 1, 256, 256), ("variants", 1, 4080, 3400), ("arms", 0, 30, 0)],
            matches,
        ),
        family(
            "roots that look fields up",
            AIMS,
            &[("roots", 1, 256, 256), ("fields", 1, 4080, 3000), ("times", 1, 60, 7)],
            fields,
        ),
        family("roots of empty records", AIMS, &[("roots", 1, 256, 256), ("records", 0, 40, 14)], records),
        family(
            "roots over functions that overlap",
            AIMS,
            &[("roots", 1, 256, 256), ("functions", 1, 2040, 1020), ("length", 1, 2040, 1000)],
            functions,
        ),
        family(
            "values over one list",
            &[Ask::Order],
            &[("values", 1, 1024, 1024), ("length", 0, 1024, 1024)],
            one_list,
        ),
        family(
            "values that reference some",
            &[Ask::Order],
            &[("values", 1, 1024, 1024), ("degree", 0, 200, 6), ("seed", 0, 1000, 1), ("near", 1, 1024, 1024)],
            some,
        ),
    ]
}

/// Unit and the type of definition 0, whose list comes later, and an empty list.
fn begun() -> (Maker, usize, usize, usize) {
    let mut maker = Maker::new();
    let none = maker.singles(&[]);
    let unit = maker.type_row(1, 0, 0);
    let first = maker.type_row(4, 0, none);
    (maker, none, unit, first)
}

/// A root whose parameters are a list that stands already.
fn root(maker: &mut Maker, body: usize, returns: usize, list: usize) {
    maker.roots.push((body as u64) << 50 | (returns as u64) << 36 | (list as u64) << 22);
}

fn small_roots(p: &[usize]) -> Maker {
    let [roots, nodes] = numbers(p);
    let (mut maker, none, unit, _) = begun();
    maker.definition(2, 0, 0);
    for _ in 0..roots {
        let statements: Vec<usize> = (0..nodes).map(|_| maker.literal(7)).collect();
        let body = maker.block(&statements, None);
        root(&mut maker, body, unit, none);
    }
    maker
}

fn parameters(p: &[usize]) -> Maker {
    let [roots, parameters] = numbers(p);
    let (mut maker, _, unit, _) = begun();
    maker.definition(2, 0, 0);
    let list = maker.pairs(&(0..parameters).map(|slot| (slot, unit)).collect::<Vec<_>>());
    for _ in 0..roots {
        let body = maker.literal(7);
        root(&mut maker, body, unit, list);
    }
    maker
}

fn matches(p: &[usize]) -> Maker {
    let [roots, variants, arms] = numbers(p);
    let (mut maker, none, unit, enumeration) = begun();
    let list = maker.pairs(&(0..variants).map(|name| (name, none)).collect::<Vec<_>>());
    maker.definition(0, 0, list);
    let list = maker.pairs(&[(0, enumeration)]);
    let all = |maker: &mut Maker| {
        let mut all: Vec<_> =
            (0..arms).map(|_| (Pattern::Variant(variants - 1, None), None, maker.literal(7))).collect();
        all.push((Pattern::Underscore, None, maker.literal(7)));
        all
    };
    for _ in 0..roots {
        let examinee = maker.slot(0);
        let list_of_arms = all(&mut maker);
        let body = maker.match_expr(examinee, &list_of_arms);
        root(&mut maker, body, unit, list);
    }
    maker
}

/// Each root looks the last field up so many times.
fn fields(p: &[usize]) -> Maker {
    let [roots, fields, times] = numbers(p);
    let (mut maker, _, unit, record) = begun();
    let list = maker.pairs(&(0..fields).map(|name| (name, unit)).collect::<Vec<_>>());
    maker.definition(1, 0, list);
    let parameters = maker.pairs(&[(0, record)]);
    for _ in 0..roots {
        let statements: Vec<usize> = (0..times)
            .map(|_| {
                let of = maker.slot(0);
                maker.field(of, fields - 1)
            })
            .collect();
        let body = maker.block(&statements, None);
        root(&mut maker, body, unit, parameters);
    }
    maker
}

fn records(p: &[usize]) -> Maker {
    let [roots, records] = numbers(p);
    let (mut maker, none, unit, _) = begun();
    maker.definition(1, 0, none);
    for _ in 0..roots {
        let statements: Vec<usize> = (0..records).map(|_| maker.expression(6, 0, 0, none, 0)).collect();
        let body = maker.block(&statements, None);
        root(&mut maker, body, unit, none);
    }
    maker
}

fn functions(p: &[usize]) -> Maker {
    let [roots, functions, length] = numbers(p);
    let mut maker = Maker::new();
    for _ in 0..=length {
        maker.type_row(1, 0, 0);
    }
    maker.words = vec![length as u16; functions + length];
    for k in 0..functions {
        maker.type_row(6, 0, k);
    }
    let none = maker.singles(&[]);
    for _ in 0..roots {
        let body = maker.literal(7);
        root(&mut maker, body, 0, none);
    }
    maker
}

fn one_list(p: &[usize]) -> Maker {
    let [values, length] = numbers(p);
    let mut maker = Maker::new();
    let list = maker.singles(&(0..length.min(values)).collect::<Vec<_>>());
    maker.values = vec![1 << 30 | list as u32; values];
    maker
}

/// Each references some that are near it.
fn some(p: &[usize]) -> Maker {
    let [values, degree, seed, near] = numbers(p);
    let mut random = Random::new(seed as u64);
    let mut maker = Maker::new();
    for v in 0..values {
        let from = v.saturating_sub(near / 2);
        let to = (from + near).min(values);
        let mut references: Vec<usize> = (0..degree).map(|_| from + random.below(to - from)).collect();
        references.sort_unstable();
        references.dedup();
        maker.value(1, &references);
    }
    maker
}

//! Short packs, all of them; and packs at the limits of document 01 and one past them.

use crate::make::{Maker, Pattern, op};

/// Tables that hold one type of every class, and the start of every operand: literals and slots.
struct Classes {
    maker: Maker,
    /// Each literal's op, and for the others the slot of a parameter.
    operands: Vec<Operand>,
    /// The type rows: one for each class.
    rows: Vec<usize>,
}

#[derive(Clone, Copy)]
enum Operand {
    Literal(usize),
    Parameter(usize, usize),
}

fn classes() -> Classes {
    let mut maker = Maker::new();
    let none = maker.singles(&[]);
    let no_pairs = none;
    for p in (0..=5).chain(8..=17) {
        maker.primitive(p);
    }
    let never = maker.type_row(0, 0, 0);
    let unit = maker.type_row(1, 0, 0);
    let explicit = maker.type_row(3, 0, 0);
    let one = maker.singles(&[4]);
    let enumeration = maker.type_row(4, 0, none);
    let record = maker.type_row(4, 1, none);
    let runtime = maker.type_row(4, 2, none);
    let list = maker.type_row(4, 3, none);
    let list_of = maker.type_row(4, 4, one);
    let plain_record = maker.type_row(5, 0, no_pairs);
    let function = maker.type_row(6, 4, one);
    maker.definition(0, 0, no_pairs);
    maker.definition(1, 0, no_pairs);
    maker.definition(2, 0, 0);
    maker.definition(3, 0, 0);
    maker.definition(3, 1, 0);
    let others = [5, never, explicit, enumeration, record, runtime, list, list_of, plain_record, function];
    let mut operands: Vec<Operand> = (0..18).map(Operand::Literal).collect();
    operands.extend(others.iter().enumerate().map(|(slot, row)| Operand::Parameter(slot, *row)));
    let mut rows: Vec<usize> = (0..16).collect();
    rows.extend([unit, never, explicit, enumeration, record, runtime, list, list_of, plain_record, function]);
    Classes { maker, operands, rows }
}

/// Every operator with every left and right operand, under every expected type and under none: one root each.
pub fn operators(mut each: impl FnMut(Vec<u8>)) {
    let Classes { maker, operands, rows } = classes();
    let parameters: Vec<(usize, usize)> = operands
        .iter()
        .filter_map(|o| match o {
            Operand::Parameter(slot, row) => Some((*slot, *row)),
            Operand::Literal(_) => None,
        })
        .collect();
    let node = |maker: &mut Maker, o: Operand| match o {
        Operand::Literal(literal) => maker.literal(literal),
        Operand::Parameter(slot, _) => maker.slot(slot),
    };
    for o in 0..14 {
        for left in &operands {
            for right in &operands {
                for expected in rows.iter().map(Some).chain([None]) {
                    let mut maker = maker.clone();
                    let left = node(&mut maker, *left);
                    let right = node(&mut maker, *right);
                    let operator = maker.operator(o, left, right);
                    match expected {
                        Some(row) => maker.root(operator, *row, &parameters),
                        // As a statement it is under a variable.
                        None => {
                            let block = maker.block(&[operator], None);
                            maker.root(block, 16 + 1, &parameters)
                        }
                    };
                    each(maker.bytes());
                }
            }
        }
    }
}

/// Every graph of at most three values, of every kind.
pub fn graphs(mut each: impl FnMut(Vec<u8>)) {
    for n in 0..=3u32 {
        for kinds in 0..4usize.pow(n) {
            for edges in 0..1usize << (n * n) {
                let n = n as usize;
                let mut maker = Maker::new();
                for v in 0..n {
                    let references: Vec<usize> = (0..n).filter(|w| edges >> (v * n + w) & 1 == 1).collect();
                    maker.value(kinds >> (2 * v) & 3, &references);
                }
                each(maker.bytes());
            }
        }
    }
}

/// Every table of two definitions, records or enums of at most two fields, over types that name them, a record of
/// names, a function of one, a variable, and a runtime definition.
pub fn definitions(mut each: impl FnMut(Vec<u8>)) {
    let fields: Vec<Vec<usize>> = {
        let mut all = vec![vec![]];
        all.extend((0..9).map(|t| vec![t]));
        all.extend((0..9).flat_map(|t| (0..9).map(move |u| vec![t, u])));
        all
    };
    for first in &fields {
        for second in &fields {
            for kinds in 0..4 {
                let mut maker = Maker::new();
                let none = maker.singles(&[]);
                maker.type_row(4, 0, none);
                maker.type_row(4, 1, none);
                maker.type_row(4, 2, none);
                let of_first = maker.pairs(&[(0, 0)]);
                maker.type_row(5, 0, of_first);
                let of_second = maker.pairs(&[(0, 1), (1, 2)]);
                maker.type_row(5, 0, of_second);
                let one = maker.singles(&[0]);
                maker.type_row(6, 1, one);
                maker.type_row(7, 0, 0);
                maker.type_row(4, 3, one);
                let held = maker.pairs(&[(0, 6)]);
                maker.type_row(5, 0, held);
                for (d, fields) in [first, second].into_iter().enumerate() {
                    if kinds >> d & 1 == 0 {
                        let list = maker.pairs(&(0..).zip(fields.iter().copied()).collect::<Vec<_>>());
                        maker.definition(1, 0, list);
                    } else {
                        let of = maker.singles(fields);
                        let list = maker.pairs(&[(0, none), (1, of)]);
                        maker.definition(0, 0, list);
                    }
                }
                maker.definition(2, 0, 0);
                maker.definition(1, 1, of_first);
                each(maker.bytes());
            }
        }
    }
}

/// A block of statements that make so many variables, with a literal for its last.
pub fn many_variables(variables: usize, last: usize) -> Maker {
    let mut maker = Maker::new();
    let unit = maker.type_row(1, 0, 0);
    let mut statements = Vec::new();
    for _ in 0..variables / 2 {
        statements.push(maker.literal(5));
    }
    if variables % 2 == 1 {
        statements.push(maker.literal(7));
    }
    let last = maker.literal(last);
    let block = maker.block(&statements, Some(last));
    maker.root(block, unit, &[]);
    maker
}

/// A literal under so many blocks that its depth is `depth`.
pub fn deep(depth: usize) -> Maker {
    let mut maker = Maker::new();
    let unit = maker.type_row(1, 0, 0);
    let mut node = maker.literal(7);
    for _ in 1..depth {
        node = maker.block(&[], Some(node));
    }
    maker.root(node, unit, &[]);
    maker
}

/// A match on an enum of `variants`, with an arm for each of the first `arms`.
pub fn wide_match(variants: usize, arms: usize) -> Maker {
    let mut maker = Maker::new();
    let none = maker.singles(&[]);
    let unit = maker.type_row(1, 0, 0);
    let t = maker.type_row(4, 0, none);
    let items: Vec<(usize, usize)> = (0..variants).map(|v| (v, none)).collect();
    let list = maker.pairs(&items);
    maker.definition(0, 0, list);
    let examinee = maker.slot(0);
    let arms: Vec<_> = (0..arms).map(|v| (Pattern::Variant(v, None), None, maker.literal(7))).collect();
    let body = maker.match_expr(examinee, &arms);
    maker.root(body, unit, &[(0, t)]);
    maker
}

/// A record definition of so many unit fields; unit, and its type.
fn record_of(fields: usize) -> (Maker, usize, usize) {
    let mut maker = Maker::new();
    let none = maker.singles(&[]);
    let unit = maker.type_row(1, 0, 0);
    let t = maker.type_row(4, 0, none);
    let list = maker.pairs(&(0..fields).map(|n| (n, unit)).collect::<Vec<_>>());
    maker.definition(1, 0, list);
    (maker, unit, t)
}

/// A record of `fields`, of which the first `given` are given, backward.
pub fn wide_record(fields: usize, given: usize) -> Maker {
    let (mut maker, _, t) = record_of(fields);
    let given: Vec<_> = (0..given).rev().map(|n| (n, maker.literal(7))).collect();
    let body = maker.record(0, &given);
    maker.root(body, t, &[]);
    maker
}

/// `times` times the last field of a definition of `fields`, as statements.
pub fn many_accesses(fields: usize, times: usize) -> Maker {
    let (mut maker, unit, t) = record_of(fields);
    let statements: Vec<usize> = (0..times)
        .map(|_| {
            let of = maker.slot(0);
            maker.field(of, fields - 1)
        })
        .collect();
    let body = maker.block(&statements, None);
    maker.root(body, unit, &[(0, t)]);
    maker
}

/// A definition of `fields` whose fields are all of its own type; as statements, `times` times the last field of the last
/// field and so on, `deep` times.
pub fn nested_accesses(fields: usize, deep: usize, times: usize) -> Maker {
    let mut maker = Maker::new();
    let none = maker.singles(&[]);
    let unit = maker.type_row(1, 0, 0);
    let t = maker.type_row(4, 0, none);
    let list = maker.pairs(&(0..fields).map(|f| (f, t)).collect::<Vec<_>>());
    maker.definition(1, 0, list);
    let statements: Vec<usize> = (0..times)
        .map(|_| {
            let slot = maker.slot(0);
            (0..deep).fold(slot, |of, _| maker.field(of, fields - 1))
        })
        .collect();
    let body = maker.block(&statements, None);
    maker.root(body, unit, &[(0, t)]);
    maker
}

/// `times` times a match on an enum of `variants`, as statements, each with `arms` arms of the last variant and `_`.
pub fn many_matches(variants: usize, times: usize, arms: usize) -> Maker {
    let mut maker = Maker::new();
    let none = maker.singles(&[]);
    let unit = maker.type_row(1, 0, 0);
    let t = maker.type_row(4, 0, none);
    let list = maker.pairs(&(0..variants).map(|v| (v, none)).collect::<Vec<_>>());
    maker.definition(0, 0, list);
    let statements: Vec<usize> = (0..times)
        .map(|_| {
            let examinee = maker.slot(0);
            let mut all: Vec<_> =
                (0..arms).map(|_| (Pattern::Variant(variants - 1, None), None, maker.literal(7))).collect();
            all.push((Pattern::Underscore, None, maker.literal(7)));
            maker.match_expr(examinee, &all)
        })
        .collect();
    let body = maker.block(&statements, None);
    maker.root(body, unit, &[(0, t)]);
    maker
}

/// 256 lets, and `again` more of the last slot.
fn all_slots(again: usize) -> Maker {
    let mut maker = Maker::new();
    let unit = maker.type_row(1, 0, 0);
    let mut statements = Vec::new();
    for n in 0..256 + again {
        let value = maker.literal(7);
        statements.push(maker.let_statement(n.min(255), value, None));
    }
    let last = maker.slot(255);
    let block = maker.block(&statements, Some(last));
    maker.root(block, unit, &[]);
    maker
}

/// Every match of at most three arms, with and without guards, on an enum of a variant without fields and one with a
/// field; also on enums of none and of one.
pub fn matches(mut each: impl FnMut(Vec<u8>)) {
    // A variant's name, and how many names its payload has; `None` for `_`.
    let patterns: Vec<Option<(usize, Option<usize>)>> = vec![
        Some((0, None)),
        Some((0, Some(0))),
        Some((0, Some(1))),
        Some((1, None)),
        Some((1, Some(0))),
        Some((1, Some(1))),
        Some((1, Some(2))),
        Some((2, None)),
        None,
    ];
    let arms: Vec<(usize, bool)> = (0..patterns.len()).flat_map(|p| [(p, false), (p, true)]).collect();
    let mut lists: Vec<Vec<(usize, bool)>> = vec![vec![]];
    let mut from = 0;
    for _ in 0..3 {
        let to = lists.len();
        for i in from..to {
            for arm in &arms {
                let mut list = lists[i].clone();
                list.push(*arm);
                lists.push(list);
            }
        }
        from = to;
    }
    for variants in 0..=2 {
        for list in lists.iter().filter(|list| variants == 2 || list.len() < 3) {
            let mut maker = Maker::new();
            let none = maker.singles(&[]);
            let unit = maker.type_row(1, 0, 0);
            let t = maker.type_row(4, 0, none);
            let field = maker.singles(&[unit]);
            let items = maker.pairs(&[(0, none), (1, field)][..variants]);
            maker.definition(0, 0, items);
            let examinee = maker.slot(0);
            let arms: Vec<_> = list
                .iter()
                .enumerate()
                .map(|(i, (p, guarded))| {
                    let pattern = match patterns[*p] {
                        None => Pattern::Underscore,
                        Some((name, names)) => {
                            let slots = names.map(|n| (0..n).map(|k| 10 + 2 * i + k).collect::<Vec<_>>());
                            Pattern::Variant(name, slots.map(|slots| maker.singles(&slots)))
                        }
                    };
                    let guard = guarded.then(|| maker.literal(4));
                    (pattern, guard, maker.literal(7))
                })
                .collect();
            let body = maker.match_expr(examinee, &arms);
            maker.root(body, unit, &[(0, t)]);
            each(maker.bytes());
        }
    }
}

/// Every record expression of at most four names out of three, for definitions of none to two fields.
pub fn records(mut each: impl FnMut(Vec<u8>)) {
    for fields in 0..=2 {
        for length in 0..=4u32 {
            for names in 0..3usize.pow(length) {
                let mut maker = Maker::new();
                let none = maker.singles(&[]);
                let unit = maker.type_row(1, 0, 0);
                let t = maker.type_row(4, 0, none);
                let list = maker.pairs(&[(0, unit), (1, unit)][..fields]);
                maker.definition(1, 0, list);
                let given: Vec<_> = (0..length).map(|i| (names / 3usize.pow(i) % 3, maker.literal(7))).collect();
                let body = maker.record(0, &given);
                maker.root(body, t, &[]);
                each(maker.bytes());
            }
        }
    }
}

/// A let in every place that an expression may have, and in the one that it has to have.
pub fn lets(mut each: impl FnMut(Vec<u8>)) {
    for place in 0..12 {
        let mut maker = Maker::new();
        let unit = maker.type_row(1, 0, 0);
        let none = maker.singles(&[]);
        let enumeration = maker.type_row(4, 0, none);
        let record = maker.type_row(4, 1, none);
        let variants = maker.pairs(&[(0, none)]);
        maker.definition(0, 0, variants);
        let fields = maker.pairs(&[(0, unit)]);
        maker.definition(1, 0, fields);
        let value = maker.literal(7);
        let node = maker.let_statement(5, value, None);
        let body = match place {
            0 => node,
            1 => maker.block(&[node], None),
            2 => maker.block(&[], Some(node)),
            3 => {
                let outer = maker.let_statement(6, node, None);
                maker.block(&[outer], None)
            }
            4 => {
                let arm = maker.literal(7);
                maker.match_expr(node, &[(Pattern::Variant(0, None), None, arm)])
            }
            5 | 6 => {
                let (examinee, other) = (maker.slot(0), maker.literal(7));
                let (guard, body) = if place == 5 { (Some(node), other) } else { (Some(other), node) };
                maker.match_expr(examinee, &[(Pattern::Underscore, guard, body)])
            }
            7 | 8 => {
                let other = maker.literal(7);
                let (left, right) = if place == 7 { (node, other) } else { (other, node) };
                maker.operator(op::EQ, left, right)
            }
            9 => maker.record(1, &[(0, node)]),
            10 => maker.field(node, 0),
            _ => maker.returns(Some(node)),
        };
        maker.root(body, unit, &[(0, enumeration), (1, record)]);
        each(maker.bytes());
    }
}

/// Packs at the limits and one past them.
pub fn limits(mut each: impl FnMut(Vec<u8>)) {
    for last in [5, 7] {
        for variables in 2045..=2050 {
            each(many_variables(variables, last).bytes());
        }
    }
    for depth in 62..=66 {
        each(deep(depth).bytes());
    }
    for arms in [0, 1, 1298, 1299, 1300] {
        each(wide_match(1300, arms).bytes());
    }
    for given in [0, 1, 1998, 1999, 2000, 2001] {
        each(wide_record(2000, given).bytes());
    }
    for again in 0..2 {
        each(all_slots(again).bytes());
    }
    // A left chain of 2,047 pluses makes 2,047 variables and more for bare numbers.
    for (length, literal) in [(40, 5), (40, 11), (60, 5), (61, 5), (62, 5), (63, 5), (64, 5)] {
        let mut maker = Maker::new();
        let t = maker.primitive(11);
        let mut node = maker.literal(literal);
        for _ in 1..length {
            let right = maker.literal(literal);
            node = maker.operator(op::ADD, node, right);
        }
        maker.root(node, t, &[]);
        each(maker.bytes());
    }
    // Each count at its limit and past it, with nothing else.
    for (table, limit) in crate::Counts::LIMITS.into_iter().enumerate() {
        for n in [limit - 1, limit, limit + 1] {
            let mut maker = Maker::new();
            match table {
                0 => maker.types = vec![1 << 28; n],
                1 => maker.definitions = vec![2 << 30; n],
                2 => maker.expressions = vec![7 << 52; n],
                3 => {
                    let unit = maker.type_row(1, 0, 0);
                    let none = maker.singles(&[]);
                    for _ in 0..n {
                        let body = maker.literal(7);
                        maker.roots.push((body as u64) << 50 | (unit as u64) << 36 | (none as u64) << 22);
                    }
                }
                4 => {
                    let none = maker.singles(&[]);
                    maker.values = vec![1 << 30 | none as u32; n];
                }
                _ => maker.words = vec![0; n],
            }
            each(maker.bytes());
        }
    }
    // Values that reference the one before, the one after, or all.
    for n in [1, 2, 1023, 1024] {
        for shape in 0..4 {
            let mut maker = Maker::new();
            let all: Vec<usize> = (0..n).collect();
            let shared = if shape == 3 { maker.singles(&all) } else { 0 };
            for v in 0..n {
                match shape {
                    0 => _ = maker.value(1, &(v.saturating_sub(1)..v).collect::<Vec<_>>()),
                    1 => _ = maker.value(usize::from(v != 0), &(v + 1..(v + 2).min(n)).collect::<Vec<_>>()),
                    2 => _ = maker.value(usize::from(v != n / 2), &[(v + 1) % n]),
                    _ => maker.values.push(1 << 30 | shared as u32),
                }
            }
            each(maker.bytes());
        }
    }
}

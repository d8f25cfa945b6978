//! The packs that need the most stack, by name: each kind of expression nested as deep as may be, the longest lists, the
//! longest chains of variables, types, definitions and values.

use crate::exhaustive::{deep, many_accesses, many_variables, nested_accesses, wide_match, wide_record};
use crate::make::{Maker, Pattern, op};

/// The deepest that an expression may stand.
const DEPTH: usize = 64;
const TYPES: usize = 2048;
const DEFINITIONS: usize = 512;
const VALUES: usize = 1024;

/// A bare integer, and a literal of type bool.
const BARE: usize = 5;
const BOOL: usize = 4;

/// The rows that the makers below begin with. The rows of the records follow.
const UNIT: usize = 0;
const BOOL_ROW: usize = 1;
const I64: usize = 2;
const ENUM: usize = 3;
const RECORDS: usize = 4;

/// The rows, with records that have one field.
fn begun() -> Maker {
    begun_with(0)
}

/// Unit, bool, i64, an enum of two variants (the first without fields, the second with a unit), and 64 records: record 0 has
/// no field, each other so many units and then the record before.
fn begun_with(units: usize) -> Maker {
    let mut maker = Maker::new();
    let none = maker.singles(&[]);
    maker.type_row(1, 0, 0);
    maker.primitive(4);
    maker.primitive(11);
    maker.type_row(4, 0, none);
    let payload = maker.singles(&[UNIT]);
    let variants = maker.pairs(&[(0, none), (1, payload)]);
    maker.definition(0, 0, variants);
    for record in 0..DEPTH {
        maker.type_row(4, 1 + record, none);
        let mut fields: Vec<(usize, usize)> = (0..units).map(|name| (name, UNIT)).collect();
        if record > 0 {
            fields.push((units, record_row(record - 1)));
        }
        let list = if record > 0 { maker.pairs(&fields) } else { none };
        maker.definition(1, 0, list);
    }
    maker
}

/// The type row of a record.
const fn record_row(record: usize) -> usize {
    RECORDS + record
}

/// An expression of a record: its field 0 is that of the record before.
fn record_of(maker: &mut Maker, record: usize, inner: usize) -> usize {
    maker.record(1 + record, &[(0, inner)])
}

/// The parameters of a root over these rows: slot 0 is of the enum, slot 1 of the first record, slot 2 of the last.
const PARAMETERS: [(usize, usize); 3] = [(0, ENUM), (1, record_row(0)), (2, record_row(DEPTH - 1))];

/// A node wrapped so often, each time by one level, and a root of it.
fn nested(first: fn(&mut Maker) -> usize, times: usize, returns: usize, wrap: fn(&mut Maker, usize) -> usize) -> Maker {
    let mut maker = begun();
    let mut node = first(&mut maker);
    for _ in 0..times {
        node = wrap(&mut maker, node);
    }
    maker.root(node, returns, &PARAMETERS);
    maker
}

/// So many record expressions, each the field of the next; the innermost has no field.
pub fn nested_records(records: usize) -> Maker {
    wide_records(records, 0)
}

/// The same with so many units before the field that is a record.
fn wide_records(records: usize, units: usize) -> Maker {
    let mut maker = begun_with(units);
    let mut node = maker.record(1, &[]);
    for record in 1..records {
        let mut fields: Vec<(usize, usize)> = (0..units).map(|name| (name, maker.literal(7))).collect();
        fields.push((units, node));
        node = maker.record(1 + record, &fields);
    }
    maker.root(node, record_row(records - 1), &PARAMETERS);
    maker
}

/// A match on the enum whose first arm has this guard and this body.
fn matched(maker: &mut Maker, examinee: usize, guard: Option<usize>, body: usize, other: usize) -> usize {
    maker.match_expr(examinee, &[(Pattern::Variant(0, None), guard, body), (Pattern::Underscore, None, other)])
}

/// The slot of the chains below.
const CHAINED: usize = 3;

/// A match with so many arms, each of a bare number: a chain of as many variables. The first arm's body is a slot, so that
/// what was bound to it stands at the chain's end.
fn arms_of_numbers(maker: &mut Maker, arms: usize) -> usize {
    let examinee = maker.slot(0);
    let mut all = vec![(Pattern::Variant(0, None), None, maker.slot(CHAINED))];
    for _ in 0..arms {
        all.push((Pattern::Variant(0, None), None, maker.literal(BARE)));
    }
    all.push((Pattern::Underscore, None, maker.literal(BARE)));
    maker.match_expr(examinee, &all)
}

/// `{ let s = 1; match .. { a chain of variables }; NODE }` where the node is of a record, and has a statement so many levels
/// down that uses s. A level raises the record by so much.
fn over_a_chain(arms: usize, levels: usize, raise: usize, wrap: fn(&mut Maker, usize, usize) -> usize) -> Maker {
    let mut maker = begun();
    let one = maker.literal(BARE);
    let bound = maker.let_statement(CHAINED, one, None);
    let chain = arms_of_numbers(&mut maker, arms);
    let (used, last) = (maker.slot(CHAINED), maker.slot(1));
    let mut node = maker.block(&[used], Some(last));
    for level in 1..=levels {
        node = wrap(&mut maker, level, node);
    }
    let block = maker.block(&[bound, chain], Some(node));
    maker.root(block, record_row(raise * levels), &PARAMETERS);
    maker
}

/// A tree of And over this many literals.
fn conjunction(leaves: usize) -> Maker {
    let mut maker = begun();
    let mut level: Vec<usize> = (0..leaves).map(|_| maker.literal(BOOL)).collect();
    while level.len() > 1 {
        level = level
            .chunks(2)
            .map(|two| if let [left, right] = two { maker.operator(op::AND, *left, *right) } else { two[0] })
            .collect();
    }
    maker.root(level[0], BOOL_ROW, &PARAMETERS);
    maker
}

/// Expressions nested as deep as may be.
fn expressions() -> Vec<(&'static str, Maker)> {
    let unit: fn(&mut Maker) -> usize = |m| m.literal(7);
    let yes: fn(&mut Maker) -> usize = |m| m.literal(BOOL);
    let bare: fn(&mut Maker) -> usize = |m| m.literal(BARE);
    let most = DEPTH - 1;
    vec![
        ("64 records nested", nested_records(DEPTH)),
        ("64 records of 29 fields nested as the last", wide_records(DEPTH, 28)),
        ("63 blocks nested as last expressions", deep(DEPTH)),
        ("63 blocks nested as statements", nested(unit, most, UNIT, |m, inner| m.block(&[inner], None))),
        (
            "60 blocks of 30 statements nested as the last",
            nested(unit, 60, UNIT, |m, inner| {
                let mut statements: Vec<usize> = (0..29).map(|_| m.literal(7)).collect();
                statements.push(inner);
                m.block(&statements, None)
            }),
        ),
        (
            "60 matches of 26 arms nested as the last",
            nested(unit, 60, UNIT, |m, inner| {
                let examinee = m.slot(0);
                let mut arms: Vec<_> = (0..25).map(|_| (Pattern::Variant(0, None), None, m.literal(7))).collect();
                arms.push((Pattern::Underscore, None, inner));
                m.match_expr(examinee, &arms)
            }),
        ),
        (
            "63 matches nested as bodies",
            nested(unit, most, UNIT, |m, inner| {
                let (examinee, other) = (m.slot(0), m.literal(7));
                matched(m, examinee, None, inner, other)
            }),
        ),
        (
            "63 matches nested as last bodies",
            nested(unit, most, UNIT, |m, inner| {
                let (examinee, other) = (m.slot(0), m.literal(7));
                matched(m, examinee, None, other, inner)
            }),
        ),
        (
            "63 matches nested as guards",
            nested(yes, most, BOOL_ROW, |m, inner| {
                let (examinee, body, other) = (m.slot(0), m.literal(BOOL), m.literal(BOOL));
                matched(m, examinee, Some(inner), body, other)
            }),
        ),
        (
            "63 matches nested as examinees",
            nested(
                |m| m.slot(0),
                most,
                ENUM,
                |m, inner| {
                    let (body, other) = (m.slot(0), m.slot(0));
                    matched(m, inner, None, body, other)
                },
            ),
        ),
        (
            "63 sums nested to the left",
            nested(bare, most, I64, |m, inner| {
                let right = m.literal(BARE);
                m.operator(op::ADD, inner, right)
            }),
        ),
        (
            "63 sums nested to the right",
            nested(bare, most, I64, |m, inner| {
                let left = m.literal(BARE);
                m.operator(op::ADD, left, inner)
            }),
        ),
        (
            "63 comparisons nested to the right",
            nested(yes, most, BOOL_ROW, |m, inner| {
                let left = m.literal(BOOL);
                m.operator(op::EQ, left, inner)
            }),
        ),
        (
            "63 conjunctions nested to the left",
            nested(yes, most, BOOL_ROW, |m, inner| {
                let right = m.literal(BOOL);
                m.operator(op::AND, inner, right)
            }),
        ),
        ("63 fields nested", nested(|m| m.slot(2), most, record_row(0), |m, inner| m.field(inner, 0))),
        ("63 returns nested", nested(unit, most, UNIT, |m, inner| m.returns(Some(inner)))),
        ("31 lets nested", lets()),
        ("60 levels of every kind", mixed()),
    ]
}

/// Lets whose values are blocks with lets.
fn lets() -> Maker {
    let mut maker = begun();
    let mut node = maker.literal(7);
    for slot in CHAINED..CHAINED + DEPTH / 2 - 1 {
        let bound = maker.let_statement(slot, node, None);
        let last = maker.slot(slot);
        node = maker.block(&[bound], Some(last));
    }
    maker.root(node, UNIT, &PARAMETERS);
    maker
}

/// A record in a match in a block in a field and so on, with a return at the bottom.
fn mixed() -> Maker {
    let mut maker = begun();
    let returned = maker.slot(1);
    let mut node = maker.returns(Some(returned));
    for _ in 0..DEPTH / 4 - 1 {
        node = record_of(&mut maker, 1, node);
        let (examinee, inner) = (maker.slot(0), maker.slot(1));
        let other = record_of(&mut maker, 1, inner);
        node = matched(&mut maker, examinee, None, node, other);
        let statement = maker.literal(7);
        node = maker.block(&[statement], Some(node));
        node = maker.field(node, 0);
    }
    maker.root(node, record_row(0), &PARAMETERS);
    maker
}

/// The longest lists of each kind, and the longest chains of variables.
fn lists() -> Vec<(&'static str, Maker)> {
    let block: fn(&mut Maker, usize, usize) -> usize = |m, _, inner| m.block(&[], Some(inner));
    let arm: fn(&mut Maker, usize, usize) -> usize = |m, _, inner| {
        let (examinee, other) = (m.slot(0), m.slot(1));
        matched(m, examinee, None, inner, other)
    };
    vec![
        ("2,048 statements", {
            let mut maker = begun();
            let statements: Vec<usize> = (0..2048).map(|_| maker.literal(7)).collect();
            let block = maker.block(&statements, None);
            maker.root(block, UNIT, &[]);
            maker
        }),
        ("256 lets", {
            let mut maker = begun();
            let mut statements = Vec::new();
            for slot in 0..256 {
                let value = if slot == 0 { maker.literal(BARE) } else { maker.slot(slot - 1) };
                statements.push(maker.let_statement(slot, value, None));
            }
            let block = maker.block(&statements, None);
            maker.root(block, UNIT, &[]);
            maker
        }),
        ("a record of 2,040 fields", wide_record(2040, 2040)),
        ("a record of 2,040 fields, one missing", wide_record(2040, 2039)),
        ("1,360 arms on 1,360 variants", wide_match(1360, 1360)),
        ("1,020 times the last of 3,570 fields", many_accesses(3570, 1020)),
        ("62 times the last of 4,050 fields, nested", nested_accesses(4050, 62, 32)),
        ("a tree of 4,095 conjunctions", conjunction(2048)),
        ("2,048 variables", many_variables(2048, 7)),
        ("2,049 variables", many_variables(2049, 7)),
        ("a chain of 1,960 variables", over_a_chain(1960, 0, 0, block)),
        ("60 blocks over a chain of 1,940 variables", over_a_chain(1940, 60, 0, block)),
        ("60 records over a chain of 1,920 variables", over_a_chain(1920, 60, 1, record_of)),
        ("60 matches over a chain of 1,820 variables", over_a_chain(1820, 60, 0, arm)),
    ]
}

/// Definitions and record types that lead to each other in a chain, `between` record types from one to the next. The last
/// leads on to definition `end`, if there is one.
pub fn definitions(count: usize, between: usize, down: bool, end: Option<usize>) -> Maker {
    let mut maker = Maker::new();
    let none = maker.singles(&[]);
    let unit = maker.type_row(1, 0, 0);
    let next = |d: usize| if down { d.checked_sub(1) } else { (d + 1 < count).then_some(d + 1) };
    let mut fields = Vec::new();
    for d in 0..count {
        let mut row = match next(d).or(end) {
            Some(to) => maker.type_row(4, to, none),
            None => unit,
        };
        for _ in 0..between {
            let list = maker.pairs(&[(0, row)]);
            row = maker.type_row(5, 0, list);
        }
        fields.push(maker.pairs(&[(0, row)]));
    }
    for list in fields {
        maker.definition(1, 0, list);
    }
    maker
}

/// Type rows that each hold the one before, with a definition and a root of the last.
fn rows(kind: usize) -> Maker {
    let mut maker = Maker::new();
    let mut row = maker.type_row(1, 0, 0);
    while maker.types.len() < TYPES {
        let list = if kind == 5 { maker.pairs(&[(0, row)]) } else { maker.singles(&[row]) };
        row = maker.type_row(kind, 0, list);
    }
    let list = maker.pairs(&[(0, row)]);
    maker.definition(1, 0, list);
    let body = maker.slot(0);
    maker.root(body, row, &[(0, row)]);
    maker
}

/// Chains of types and definitions.
fn types() -> Vec<(&'static str, Maker)> {
    vec![
        ("512 definitions in a chain up", definitions(DEFINITIONS, 0, false, None)),
        ("512 definitions in a chain down", definitions(DEFINITIONS, 0, true, None)),
        ("512 definitions in a cycle", definitions(DEFINITIONS, 0, false, Some(0))),
        ("512 definitions with 1,024 record types between", definitions(DEFINITIONS, 2, false, None)),
        ("the same down", definitions(DEFINITIONS, 2, true, None)),
        ("2,047 record types nested", rows(5)),
        ("2,047 function types nested", rows(6)),
    ]
}

/// Values of a kind in a chain, up or down or round; the last is of the other kind.
fn values(kind: usize, last: usize, to: fn(usize) -> Option<usize>) -> Maker {
    let mut maker = Maker::new();
    for v in 0..VALUES {
        let references: Vec<usize> = to(v).into_iter().collect();
        maker.value(if v + 1 == VALUES { last } else { kind }, &references);
    }
    maker
}

/// Chains of values.
fn chains() -> Vec<(&'static str, Maker)> {
    let up: fn(usize) -> Option<usize> = |v| (v + 1 < VALUES).then_some(v + 1);
    vec![
        ("1,024 functions in a chain up", values(1, 1, up)),
        ("1,024 functions in a chain down", values(1, 1, |v| v.checked_sub(1))),
        ("1,024 functions in a cycle", values(1, 1, |v| Some((v + 1) % VALUES))),
        ("1,023 constants that lead to a context value", values(0, 2, up)),
        ("1,023 functions and a constant in a cycle", values(1, 0, |v| Some((v + 1) % VALUES))),
    ]
}

/// All of them, and a full pack.
pub fn packs() -> Vec<(&'static str, Vec<u8>)> {
    let groups = [expressions(), lists(), types(), chains()];
    let mut all: Vec<_> = groups.into_iter().flatten().map(|(name, maker)| (name, maker.bytes())).collect();
    all.push(("a full pack of 65,536 bytes", crate::full::full()));
    all
}

#[cfg(test)]
mod tests {
    /// None is refused for how it is made: else it would not come to what needs the stack.
    #[test]
    fn well_formed() {
        for (name, pack) in super::packs() {
            let made = crate::Pack::read(&pack).and_then(|pack| crate::formed::formed(&pack));
            assert_eq!(made, Ok(()), "{name}");
        }
    }

    /// Types and roots are accepted, but for those that are made to be refused, so that the program comes to the roots too.
    #[test]
    fn answers() {
        let refused = |name: &str| match name {
            "a record of 2,040 fields, one missing" => Some(31),
            "2,049 variables" => Some(37),
            "62 times the last of 4,050 fields, nested" => Some(41),
            _ => None,
        };
        let groups = [super::expressions(), super::lists()];
        for (name, maker) in groups.into_iter().flatten() {
            let pack = maker.bytes();
            let asked = move || crate::check_types(&pack).and(crate::check_root(&pack, 0, usize::MAX));
            let thread = std::thread::Builder::new().stack_size(1 << 28).spawn(asked).expect("a thread");
            let came = thread.join().expect("an answer").err().map(|r| r.number);
            assert_eq!(came, refused(name), "{name}");
        }
    }
}

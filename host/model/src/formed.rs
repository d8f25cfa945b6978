//! Well-formed packs: 10, 11 and 14 row by row, then 12, 15 and 13 over all expressions.

use crate::pack::{Pack, UNDERSCORE};
use crate::{Answer, Refusal, refuse};
use std::collections::HashSet;

/// What one row has against it, as three tests.
#[derive(Default)]
struct Faults {
    ten: bool,
    eleven: bool,
    fourteen: bool,
}

impl Faults {
    fn unused(&mut self, field: usize) {
        self.ten |= field != 0;
    }

    fn below(&mut self, number: usize, limit: usize) {
        self.eleven |= number >= limit;
    }

    /// A number stored one up, where 0 stands for none.
    fn below_or_none(&mut self, number: usize, limit: usize) {
        self.eleven |= number > limit;
    }

    fn name(&mut self, name: usize) {
        self.below(name, NAMES);
    }

    /// The items of a list, none where it is out of range.
    fn list<const W: usize>(&mut self, pack: &Pack, start: usize) -> Vec<[usize; W]> {
        pack.list(start).unwrap_or_else(|| {
            self.eleven = true;
            Vec::new()
        })
    }

    fn apart(&mut self, names: impl Iterator<Item = usize>) {
        let mut seen = HashSet::new();
        for name in names {
            self.fourteen |= !seen.insert(name);
        }
    }
}

const NAMES: usize = 16383;
const VARIABLES: usize = 2048;
const EXPLICIT: usize = 16;
const SLOTS: usize = 256;
const DEPTH: usize = 64;

pub fn is_primitive(n: usize) -> bool {
    n <= 5 || (8..=17).contains(&n)
}

fn type_row(pack: &Pack, id: usize) -> Faults {
    let mut f = Faults::default();
    let row = pack.type_row(id);
    match row.kind {
        0 | 1 => {
            f.unused(row.a);
            f.unused(row.b);
        }
        2 => {
            f.ten |= !is_primitive(row.a);
            f.unused(row.b);
        }
        3 => {
            f.unused(row.b);
            f.below(row.a, EXPLICIT);
        }
        4 => {
            f.below(row.a, pack.counts.definitions);
            let arguments = f.list::<1>(pack, row.b);
            for [t] in &arguments {
                f.below(*t, id);
            }
            if row.a < pack.counts.definitions {
                f.eleven |= pack.definition(row.a).parameters != arguments.len();
            }
        }
        5 | 10 => {
            if row.kind == 5 {
                f.unused(row.a);
            } else {
                f.below(row.a, VARIABLES);
            }
            let fields = f.list::<2>(pack, row.b);
            for [name, t] in &fields {
                f.name(*name);
                f.below(*t, id);
            }
            f.apart(fields.iter().map(|[name, _]| *name));
        }
        6 => {
            f.below(row.a, id);
            for [t] in f.list::<1>(pack, row.b) {
                f.below(t, id);
            }
        }
        7..=9 => {
            f.unused(row.b);
            f.below(row.a, VARIABLES);
        }
        _ => f.ten = true,
    }
    f
}

fn definition(pack: &Pack, id: usize) -> Faults {
    let mut f = Faults::default();
    let row = pack.definition(id);
    f.unused(row.zero);
    match row.kind {
        0 => {
            let variants = f.list::<2>(pack, row.list);
            for [name, start] in &variants {
                f.name(*name);
                for [t] in f.list::<1>(pack, *start) {
                    f.below(t, pack.counts.types);
                }
            }
            f.apart(variants.iter().map(|[name, _]| *name));
        }
        1 => {
            let fields = f.list::<2>(pack, row.list);
            for [name, t] in &fields {
                f.name(*name);
                f.below(*t, pack.counts.types);
            }
            f.apart(fields.iter().map(|[name, _]| *name));
        }
        _ => f.unused(row.list),
    }
    f
}

fn expression(pack: &Pack, id: usize) -> Faults {
    let mut f = Faults::default();
    let row = pack.expression(id);
    f.unused(row.zero);
    if !matches!(row.kind, 0 | 5) {
        f.unused(row.op);
    }
    if row.kind != 3 {
        f.unused(row.c);
    }
    match row.kind {
        0 => {
            f.ten |= row.op > 17;
            f.unused(row.a);
            f.unused(row.b);
        }
        1 => {
            f.unused(row.b);
            f.below(row.a, SLOTS);
        }
        2 => {
            for [s] in f.list::<1>(pack, row.a) {
                f.below(s, id);
            }
            f.below_or_none(row.b, id);
        }
        3 => {
            f.below(row.a, SLOTS);
            f.below(row.b, id);
            f.below_or_none(row.c, pack.counts.types);
        }
        4 => {
            f.below(row.a, id);
            for [variant, slots, guard, body] in f.list::<4>(pack, row.b) {
                f.below(variant, UNDERSCORE + 1);
                if slots != 0 {
                    f.eleven |= variant == UNDERSCORE;
                    for [s] in f.list::<1>(pack, slots - 1) {
                        f.below(s, SLOTS);
                    }
                }
                f.below_or_none(guard, id);
                f.below(body, id);
            }
        }
        5 => {
            f.ten |= row.op > 13;
            f.below(row.a, id);
            f.below(row.b, id);
        }
        6 => {
            f.below(row.a, pack.counts.definitions);
            for [name, e] in f.list::<2>(pack, row.b) {
                f.name(name);
                f.below(e, id);
            }
        }
        7 => {
            f.below(row.a, id);
            f.name(row.b);
        }
        8 => {
            f.unused(row.b);
            f.below_or_none(row.a, id);
        }
        _ => f.ten = true,
    }
    f
}

fn root(pack: &Pack, id: usize) -> Faults {
    let mut f = Faults::default();
    let row = pack.root(id);
    f.unused(row.zero);
    f.below(row.body, pack.counts.expressions);
    f.below(row.returns, pack.counts.types);
    for [slot, t] in f.list::<2>(pack, row.list) {
        f.below(slot, SLOTS);
        f.below(t, pack.counts.types);
    }
    f
}

fn value(pack: &Pack, id: usize) -> Faults {
    let mut f = Faults::default();
    let row = pack.value(id);
    f.unused(row.zero);
    let references = f.list::<1>(pack, row.list);
    for [v] in &references {
        f.below(*v, pack.counts.values);
    }
    f.fourteen |= references.windows(2).any(|w| w[0] >= w[1]);
    f
}

/// The children of an expression, in the order in which they are checked.
pub fn children(pack: &Pack, id: usize) -> Vec<usize> {
    let row = pack.expression(id);
    let mut all = Vec::new();
    let optional = |n: usize| (n != 0).then(|| n - 1);
    match row.kind {
        2 => {
            all.extend(pack.items::<1>(row.a).into_iter().map(|[s]| s));
            all.extend(optional(row.b));
        }
        3 => all.push(row.b),
        4 => {
            all.push(row.a);
            for arm in pack.arms(row.b) {
                all.extend(optional(arm.guard));
                all.push(arm.body);
            }
        }
        5 => all.extend([row.a, row.b]),
        6 => all.extend(pack.items::<2>(row.b).into_iter().map(|[_, e]| e)),
        7 => all.push(row.a),
        8 => all.extend(optional(row.a)),
        _ => {}
    }
    all
}

/// 12, 15 and 13.
fn trees(pack: &Pack) -> Answer<()> {
    let x = pack.counts.expressions;
    let mut uses = vec![0usize; x];
    let mut statement = vec![false; x];
    for id in 0..x {
        for child in children(pack, id) {
            uses[child] += 1;
        }
        let row = pack.expression(id);
        if row.kind == 2 {
            for [s] in pack.items::<1>(row.a) {
                statement[s] = true;
            }
        }
    }
    let mut depth = vec![0usize; x];
    for r in 0..pack.counts.roots {
        uses[pack.root(r).body] += 1;
        depth[pack.root(r).body] = 1;
    }
    if let Some(id) = (0..x).find(|id| uses[*id] != 1) {
        return refuse(12, id);
    }
    if let Some(id) = (0..x).find(|id| pack.expression(*id).kind == 3 && !statement[*id]) {
        return refuse(15, id);
    }
    for id in (0..x).rev() {
        for child in children(pack, id) {
            depth[child] = depth[id] + 1;
        }
    }
    if let Some(id) = (0..x).find(|id| depth[*id] > DEPTH) {
        return refuse(13, id);
    }
    Ok(())
}

/// Refusals 10 to 15.
pub fn formed(pack: &Pack) -> Answer<()> {
    let tables: [(usize, fn(&Pack, usize) -> Faults); 5] = [
        (pack.counts.types, type_row),
        (pack.counts.definitions, definition),
        (pack.counts.expressions, expression),
        (pack.counts.roots, root),
        (pack.counts.values, value),
    ];
    for (table, (count, rule)) in tables.into_iter().enumerate() {
        for id in 0..count {
            let f = rule(pack, id);
            let number = [(f.ten, 10), (f.eleven, 11), (f.fourteen, 14)];
            if let Some((_, number)) = number.into_iter().find(|(fault, _)| *fault) {
                return Err(Refusal { number, place: id as u32, detail: table as u64 });
            }
        }
    }
    trees(pack)
}

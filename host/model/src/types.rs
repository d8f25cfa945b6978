//! Module 3: 40, then 41.

use crate::pack::Pack;
use crate::{Answer, refuse};
use std::collections::HashSet;

/// The types of a definition's fields.
fn fields(pack: &Pack, definition: usize) -> Vec<usize> {
    let row = pack.definition(definition);
    match row.kind {
        0 => pack.items::<2>(row.list).into_iter().flat_map(|[_, start]| pack.items::<1>(start)).map(|[t]| t).collect(),
        1 => pack.items::<2>(row.list).into_iter().map(|[_, t]| t).collect(),
        _ => Vec::new(),
    }
}

/// The type rows that a definition's fields lead to, record types looked into, each once.
fn leads_to(pack: &Pack, definition: usize) -> HashSet<usize> {
    let mut seen = HashSet::new();
    let mut left = fields(pack, definition);
    while let Some(t) = left.pop() {
        if seen.insert(t) && pack.type_row(t).kind == 5 {
            left.extend(pack.type_parts(t));
        }
    }
    seen
}

/// The smallest definition with a variable in a field, and the smallest one on a cycle of names.
pub fn faults(pack: &Pack) -> (Option<usize>, Option<usize>) {
    let d = pack.counts.definitions;
    let leads: Vec<HashSet<usize>> = (0..d).map(|definition| leads_to(pack, definition)).collect();
    let unresolved = (0..d).find(|d| leads[*d].iter().any(|t| matches!(pack.type_row(*t).kind, 7..=10)));
    let names: Vec<Vec<usize>> = leads
        .iter()
        .map(|types| types.iter().map(|t| pack.type_row(*t)).filter(|row| row.kind == 4).map(|row| row.a).collect())
        .collect();
    let on_cycle = |definition: &usize| {
        let mut seen = HashSet::new();
        let mut left = names[*definition].clone();
        while let Some(n) = left.pop() {
            if seen.insert(n) {
                left.extend(&names[n]);
            }
        }
        seen.contains(definition)
    };
    (unresolved, (0..d).find(on_cycle))
}

pub fn detect_type_cycles(pack: &Pack) -> Answer<()> {
    match faults(pack) {
        (Some(definition), _) => refuse(40, definition),
        (None, Some(definition)) => refuse(41, definition),
        (None, None) => Ok(()),
    }
}

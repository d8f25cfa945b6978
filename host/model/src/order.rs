//! Module 5, by its words: reach, discoveries and finishes, no stack of Tarjan's.

use crate::pack::Pack;
use crate::{Answer, refuse};

const CONSTANT: usize = 0;
const CONTEXT: usize = 2;

/// A depth-first walk: when each value was discovered, and the values as they finish.
struct Walk<'a> {
    references: &'a [Vec<usize>],
    discovered: Vec<usize>,
    next: usize,
    finished: Vec<usize>,
}

impl Walk<'_> {
    fn visit(&mut self, v: usize) {
        self.discovered[v] = self.next;
        self.next += 1;
        for &w in &self.references[v] {
            if self.discovered[w] == usize::MAX {
                self.visit(w);
            }
        }
        self.finished.push(v);
    }
}

/// For each value the values that it reaches in one step or more.
fn reach(references: &[Vec<usize>]) -> Vec<Vec<bool>> {
    let n = references.len();
    (0..n)
        .map(|from| {
            let mut seen = vec![false; n];
            let mut left = references[from].clone();
            while let Some(v) = left.pop() {
                if !seen[v] {
                    seen[v] = true;
                    left.extend(&references[v]);
                }
            }
            seen
        })
        .collect()
}

pub fn find_compilation_order(pack: &Pack) -> Answer<Vec<usize>> {
    let n = pack.counts.values;
    let kind = |v: usize| pack.value(v).kind;
    let references: Vec<Vec<usize>> =
        (0..n).map(|v| pack.items::<1>(pack.value(v).list).into_iter().map(|[w]| w).collect()).collect();

    if let Some(v) = (0..n).find(|v| kind(*v) == CONSTANT && references[*v].contains(v)) {
        return refuse(50, v);
    }

    let reaches = reach(&references);
    let mut walk = Walk { references: &references, discovered: vec![usize::MAX; n], next: 0, finished: Vec::new() };
    for v in 0..n {
        if walk.discovered[v] == usize::MAX {
            walk.visit(v);
        }
    }
    let mut components: Vec<Vec<usize>> = Vec::new();
    for &v in &walk.finished {
        let mut class: Vec<usize> = (0..n).filter(|w| *w == v || (reaches[v][*w] && reaches[*w][v])).collect();
        class.sort_by_key(|w| std::cmp::Reverse(walk.discovered[*w]));
        if class.last() == Some(&v) {
            components.push(class);
        }
    }

    for class in components.iter().filter(|class| class.len() > 1) {
        if let Some(v) = class.iter().find(|v| kind(**v) == CONSTANT) {
            return refuse(51, *v);
        }
    }
    if let Some(v) = (0..n).find(|v| kind(*v) == CONSTANT && (0..n).any(|w| reaches[*v][w] && kind(w) == CONTEXT)) {
        return refuse(52, v);
    }
    Ok(components.into_iter().flatten().collect())
}

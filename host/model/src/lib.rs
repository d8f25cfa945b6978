//! A plain reference of document 01, for tests.
//!
//! It reads a pack, says whether it is well-formed, and gives the answers of the three entries: number, place, detail
//! and what is written. It was written from document 01 and docs/DECISIONS.md and shares no line with the checker, so
//! that a slip in one of the two shows as a difference. Nothing here is fast.
//!
//! The makers of packs ([`make`], [`generate`]) are here too.

pub mod deepest;
pub mod exhaustive;
pub mod formed;
pub mod full;
pub mod generate;
pub mod make;
pub mod order;
pub mod pack;
pub mod random;
pub mod root;
pub mod types;

pub use pack::{Counts, Pack};

/// A refusal: document 01's number, place and detail.
#[derive(Clone, Copy, Debug, PartialEq, Eq, Hash, PartialOrd, Ord)]
pub struct Refusal {
    pub number: u32,
    pub place: u32,
    pub detail: u64,
}

pub type Answer<T> = Result<T, Refusal>;

/// A refusal whose detail is 0.
pub fn refuse<T>(number: u32, place: usize) -> Answer<T> {
    Err(Refusal { number, place: place as u32, detail: 0 })
}

/// What `rulepack_types` answers.
pub fn check_types(bytes: &[u8]) -> Answer<()> {
    let pack = Pack::read(bytes)?;
    formed::formed(&pack)?;
    types::detect_type_cycles(&pack)
}

/// What `rulepack_root` answers, where the area has `area` bytes: the words of the root's nodes by node.
pub fn check_root(bytes: &[u8], root: u64, area: usize) -> Answer<Vec<(usize, u32)>> {
    let pack = Pack::read(bytes)?;
    if root >= pack.counts.roots as u64 {
        return refuse(5, 0);
    }
    if area < 4 * pack.counts.expressions {
        return refuse(6, 0);
    }
    formed::formed(&pack)?;
    root::check_root(&pack, root as usize)
}

/// What `rulepack_order` answers, where the area has `area` bytes: the values as listed.
pub fn order(bytes: &[u8], area: usize) -> Answer<Vec<usize>> {
    let pack = Pack::read(bytes)?;
    if area < 2 * pack.counts.values {
        return refuse(6, 0);
    }
    formed::formed(&pack)?;
    order::find_compilation_order(&pack)
}

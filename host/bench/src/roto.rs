//! The Rust's own text: `tarjan` of value_cycle.rs and unionfind.rs.
#![allow(dead_code)]

use std::collections::{BTreeMap, BTreeSet};
use std::hash::Hash;

pub mod types {
    /// What unionfind.rs asks of a type; small, which favours it.
    #[derive(Clone, Debug, PartialEq, Eq)]
    pub enum Type {
        Var(usize),
        IntVar(usize, ()),
        FloatVar(usize),
        RecordVar(usize, ()),
        Unit,
    }
}

include!(concat!(env!("OUT_DIR"), "/roto.rs"));

pub fn components(edges: &BTreeMap<u16, BTreeSet<u16>>) -> Vec<Vec<u16>> {
    tarjan(edges)
}

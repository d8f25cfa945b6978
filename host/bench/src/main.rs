//! Times in one run, as ratios, and single cases for counting instructions.
//!
//!     bench times          the tables of docs/PERFORMANCE.md
//!     bench rows GROUP     one process's figures for a table
//!     bench cases          the cases to count, a line each with tabs between: the function, and the parts of CASE
//!     bench one CASE       runs one case once
//!     bench write FOLDER   writes the packs of the cases as files

mod inputs;
mod roto;

use ena::unify::{InPlaceUnificationTable, NoError, UnifyKey, UnifyValue};
use petgraph::algo::tarjan_scc;
use petgraph::graph::{DiGraph, NodeIndex};
use roto::types::Type;
use roto::unionfind::UnionFind;
use std::collections::{BTreeMap, BTreeSet};
use std::hint::black_box;
use std::time::Instant;

#[link(name = "cells_abi", kind = "static")]
unsafe extern "C" {
    fn cells_replay(script: *const u32, length: usize, operations: u32, answers: *mut u32, room: usize);
}

// Order.

fn our_order(pack: &[u8], area: &mut [u8]) {
    rulepack::order(black_box(pack), area).expect("an order");
    black_box(area);
}

#[unsafe(no_mangle)]
#[inline(never)]
pub fn bench_text_order(edges: &BTreeMap<u16, BTreeSet<u16>>) {
    black_box(roto::components(black_box(edges)));
}

#[unsafe(no_mangle)]
#[inline(never)]
pub fn bench_petgraph_order(graph: &DiGraph<(), ()>) {
    black_box(tarjan_scc(black_box(graph)));
}

struct Graphs {
    pack: Vec<u8>,
    map: BTreeMap<u16, BTreeSet<u16>>,
    graph: DiGraph<(), ()>,
}

fn graph_inputs(references: &[Vec<usize>]) -> Graphs {
    let mut graph = DiGraph::new();
    for _ in references {
        graph.add_node(());
    }
    // petgraph takes the edge that was added last first.
    for (v, list) in references.iter().enumerate() {
        for w in list.iter().rev() {
            graph.add_edge(NodeIndex::new(v), NodeIndex::new(*w), ());
        }
    }
    let set = |list: &Vec<usize>| list.iter().map(|w| *w as u16).collect();
    Graphs {
        pack: inputs::values_pack(references),
        map: references.iter().enumerate().map(|(v, list)| (v as u16, set(list))).collect(),
        graph,
    }
}

// Union-find.

#[derive(Clone, Copy, Debug, PartialEq, Eq)]
struct Key(u32);

#[derive(Clone, Copy, Debug, PartialEq, Eq)]
struct Nothing;

impl UnifyValue for Nothing {
    type Error = NoError;

    fn unify_values(_: &Nothing, _: &Nothing) -> Result<Nothing, NoError> {
        Ok(Nothing)
    }
}

impl UnifyKey for Key {
    type Value = Nothing;

    fn index(&self) -> u32 {
        self.0
    }

    fn from_index(index: u32) -> Key {
        Key(index)
    }

    fn tag() -> &'static str {
        "Key"
    }
}

const VARIABLES: usize = 2048;

fn our_cells(script: &[u32], answers: &mut [u32]) {
    // SAFETY: both are read and written within their lengths.
    unsafe {
        cells_replay(script.as_ptr(), script.len(), (script.len() / 3) as u32, answers.as_mut_ptr(), answers.len());
    }
    black_box(answers);
}

fn script_of(joins: &[(usize, usize)], finds: &[usize]) -> Vec<u32> {
    let mut script = [0, 0, 0].repeat(VARIABLES);
    script.extend(joins.iter().flat_map(|(v, w)| [6, *v as u32, 4 * 16384 + *w as u32]));
    script.extend(finds.iter().flat_map(|v| [3, *v as u32, 0]));
    script
}

#[unsafe(no_mangle)]
#[inline(never)]
pub fn bench_text_cells(joins: &[(usize, usize)], finds: &[usize]) {
    let mut cells = UnionFind::default();
    for _ in 0..VARIABLES {
        cells.fresh(Type::Var);
    }
    for (v, w) in joins {
        cells.set(*v, Type::Var(*w));
    }
    for v in finds {
        black_box(cells.find(*v));
    }
}

#[unsafe(no_mangle)]
#[inline(never)]
pub fn bench_ena_cells(joins: &[(usize, usize)], finds: &[usize]) {
    let mut table: InPlaceUnificationTable<Key> = InPlaceUnificationTable::new();
    let keys: Vec<Key> = (0..VARIABLES).map(|_| table.new_key(Nothing)).collect();
    for (v, w) in joins {
        table.union(keys[*v], keys[*w]);
    }
    for v in finds {
        black_box(table.find(keys[*v]));
    }
}

// Times.

/// How many processes measure, each with the programs' memory laid out anew.
const PROCESSES: usize = 15;

/// How many times the programs of one row take turns in one process, at most, and where one turn is long, at least.
const TURNS: usize = 61;
const FEW_TURNS: usize = 5;

/// After how many seconds a row has had turns enough.
const ROW: f64 = 0.5;

/// How long one program runs at its turn, at least, in microseconds.
const TURN: f64 = 400.0;

fn median(mut of: Vec<f64>) -> f64 {
    of.sort_by(f64::total_cmp);
    of[of.len() / 2]
}

/// The microseconds of one run, from as many as a turn takes.
fn turn(run: &mut dyn FnMut()) -> f64 {
    let begun = Instant::now();
    let mut runs = 0;
    loop {
        run();
        runs += 1;
        let took = begun.elapsed().as_secs_f64() * 1e6;
        if took >= TURN {
            return took / f64::from(runs);
        }
    }
}

/// One row: the microseconds of the first program, and how many times each other program's time that is. They take
/// turns, so that what slows the machine for a while slows all; of each program the fastest turn counts.
fn row(name: &str, programs: &mut [&mut dyn FnMut()]) {
    let begun = Instant::now();
    let mut turns: Vec<Vec<f64>> = Vec::new();
    while turns.len() < FEW_TURNS || (turns.len() < TURNS && begun.elapsed().as_secs_f64() < ROW) {
        turns.push(programs.iter_mut().map(|p| turn(*p)).collect());
    }
    let least = |program: usize| turns.iter().map(|t| t[program]).fold(f64::MAX, f64::min);
    print!("{name}\t{}", least(0));
    for other in 1..programs.len() {
        print!("\t{}", least(0) / least(other));
    }
    println!();
}

fn rows(group: &str) {
    match group {
        "order" => {
            for (name, references) in inputs::graphs() {
                let g = graph_inputs(&references);
                let mut area = vec![0; 2 * references.len()];
                row(
                    name,
                    &mut [&mut || our_order(&g.pack, &mut area), &mut || bench_text_order(&g.map), &mut || {
                        bench_petgraph_order(&g.graph)
                    }],
                );
            }
        }
        "cells" => {
            for (name, joins, finds) in inputs::scripts() {
                let script = script_of(&joins, &finds);
                let mut answers = vec![0; script.len() / 3 * 2];
                row(
                    name,
                    &mut [
                        &mut || our_cells(&script, &mut answers),
                        &mut || bench_text_cells(&joins, &finds),
                        &mut || bench_ena_cells(&joins, &finds),
                    ],
                );
            }
        }
        _ => {
            let pack = model::full::full();
            let mut area = vec![0; 4 * 4096];
            row("types", &mut [&mut || rulepack::check_types(black_box(&pack)).expect("accepted")]);
            row(
                "one root of 16 nodes",
                &mut [&mut || rulepack::check_root(black_box(&pack), 0, &mut area).expect("accepted")],
            );
            row("order", &mut [&mut || rulepack::order(black_box(&pack), &mut area).expect("accepted")]);
        }
    }
}

/// A ratio to two figures, which is what two runs of the command agree on.
fn two_figures(x: f64) -> String {
    if x < 1.0 {
        format!("{x:.2}")
    } else if x < 10.0 {
        format!("{x:.1}")
    } else {
        format!("{x:.0}")
    }
}

/// One table: the median of each figure over the processes.
fn table(group: &str, head: &str) {
    let program = std::env::current_exe().expect("this program");
    let mut names = Vec::new();
    let mut figures: Vec<Vec<Vec<f64>>> = Vec::new();
    for process in 0..PROCESSES {
        let said = std::process::Command::new(&program).args(["rows", group]).output().expect("this program runs");
        for (i, line) in String::from_utf8(said.stdout).expect("text").lines().enumerate() {
            let mut words = line.split('\t');
            let name = words.next().expect("a name").to_string();
            if process == 0 {
                names.push(name);
                figures.push(Vec::new());
            }
            figures[i].push(words.map(|w| w.parse().expect("a number")).collect());
        }
    }
    println!("{head}");
    println!("|---|{}", "---|".repeat(figures[0][0].len()));
    for (name, of) in names.iter().zip(&figures) {
        let one = |column: usize| median(of.iter().map(|f| f[column]).collect());
        let ratios: String = (1..of[0].len()).map(|c| format!(" {} |", two_figures(one(c)))).collect();
        println!("| {name} | {:.0} |{ratios}", one(0));
    }
}

fn times() {
    table("order", "| order of 1,024 values | ours µs | ours / the Rust's `tarjan` | ours / petgraph |");
    println!();
    table("cells", "| 2,048 variables made, joined and found | ours µs | ours / the Rust's | ours / ena |");
    println!();
    table("full", "| a full accepted pack, 65,536 bytes | µs |");
}

/// The cases whose instructions are counted: the function that is counted, and the name.
fn cases() -> Vec<(String, String)> {
    let mut all = Vec::new();
    let mut push = |function: &str, name: String| all.push((function.to_string(), name));
    for (name, _) in inputs::graphs() {
        for (function, who) in
            [("rulepack_order", "ours"), ("bench_text_order", "rust"), ("bench_petgraph_order", "petgraph")]
        {
            push(function, format!("order/{name}/{who}"));
        }
    }
    for (name, _, _) in inputs::scripts() {
        for (function, who) in [("cells_replay", "ours"), ("bench_text_cells", "rust"), ("bench_ena_cells", "ena")] {
            push(function, format!("cells/{name}/{who}"));
        }
    }
    let packs = std::iter::once("a full accepted pack").chain(inputs::hostile().into_iter().map(|(name, _)| name));
    for name in packs {
        for entry in ["types", "root", "order"] {
            push(&format!("rulepack_{entry}"), format!("pack/{name}/{entry}"));
        }
    }
    all
}

fn pack(name: &str) -> Vec<u8> {
    if name == "a full accepted pack" {
        return model::full::full();
    }
    inputs::hostile().into_iter().find(|(n, _)| *n == name).expect("a pack of this name").1
}

fn one(case: &str) {
    let parts: Vec<&str> = case.split('/').collect();
    match parts[..] {
        ["order", name, who] => {
            let g = graph_inputs(&inputs::graphs().into_iter().find(|(n, _)| *n == name).expect("a graph").1);
            match who {
                "ours" => our_order(&g.pack, &mut vec![0; 2048]),
                "rust" => bench_text_order(&g.map),
                _ => bench_petgraph_order(&g.graph),
            }
        }
        ["cells", name, who] => {
            let (_, joins, finds) = inputs::scripts().into_iter().find(|(n, _, _)| *n == name).expect("a script");
            match who {
                "ours" => {
                    let script = script_of(&joins, &finds);
                    our_cells(&script, &mut vec![0; script.len() / 3 * 2]);
                }
                "rust" => bench_text_cells(&joins, &finds),
                _ => bench_ena_cells(&joins, &finds),
            }
        }
        ["pack", name, entry] => {
            let pack = pack(name);
            let mut area = vec![0; 4 * 4096];
            let answer = match entry {
                "types" => rulepack::check_types(&pack),
                "root" => rulepack::check_root(&pack, 0, &mut area),
                _ => rulepack::order(&pack, &mut area),
            };
            println!("{}", answer.err().map_or("0".to_string(), |r| r.number.to_string()));
        }
        _ => panic!("no case {case}"),
    }
}

fn main() {
    let words: Vec<String> = std::env::args().skip(1).collect();
    match words.iter().map(String::as_str).collect::<Vec<_>>()[..] {
        ["times"] => times(),
        ["rows", group] => rows(group),
        ["cases"] => cases().iter().for_each(|(function, name)| println!("{function}\t{}", name.replace('/', "\t"))),
        ["one", case] => one(case),
        ["write", folder] => {
            std::fs::write(format!("{folder}/full.rpk"), model::full::full()).expect("a file");
        }
        _ => {
            eprintln!("bench times | rows GROUP | cases | one CASE | write FOLDER");
            std::process::exit(2);
        }
    }
}

//! The inputs: graphs of 1,024 values, scripts of union-find, a full pack, and packs made to be dear.

use model::make::Maker;
use model::random::Random;

const VALUES: usize = 1024;

/// Graphs by name: the references of each value, and the pack of functions that has them.
pub fn graphs() -> Vec<(&'static str, Vec<Vec<usize>>)> {
    let mut random = Random::new(7);
    let all: Vec<usize> = (0..VALUES).collect();
    let chain = all.iter().map(|v| if v + 1 < VALUES { vec![v + 1] } else { vec![] }).collect();
    let back = all.iter().map(|v| if *v > 0 { vec![v - 1] } else { vec![] }).collect();
    let cycle = all.iter().map(|v| vec![(v + 1) % VALUES]).collect();
    let layers = all
        .iter()
        .map(|v| if v / 32 + 1 < 32 { (0..32).map(|k| (v / 32 + 1) * 32 + k).collect() } else { vec![] })
        .collect();
    let mut edges = |most: usize, below: bool| -> Vec<Vec<usize>> {
        all.iter()
            .map(|v| {
                let mut list: Vec<usize> = (0..random.below(most + 1)).map(|_| random.below(VALUES)).collect();
                if below {
                    list.retain(|w| w < v);
                }
                list.sort_unstable();
                list.dedup();
                list
            })
            .collect()
    };
    let (dense, sparse, down) = (edges(12, false), edges(2, false), edges(13, true));
    let complete = all.iter().map(|_| all.clone()).collect();
    vec![
        ("chain up", chain),
        ("chain down", back),
        ("cycle", cycle),
        ("layers", layers),
        ("random, 6 each", dense),
        ("random, 1 each", sparse),
        ("random, downward", down),
        ("complete", complete),
    ]
}

/// A pack of functions with these references; equal lists are shared.
pub fn values_pack(graph: &[Vec<usize>]) -> Vec<u8> {
    let mut maker = Maker::new();
    let mut lists: std::collections::HashMap<&Vec<usize>, usize> = std::collections::HashMap::new();
    for references in graph {
        let list = match lists.get(references) {
            Some(list) => *list,
            None => maker.singles(references),
        };
        lists.insert(references, list);
        maker.values.push(1 << 30 | list as u32);
    }
    assert!(maker.words.len() <= 8184, "{} words", maker.words.len());
    maker.bytes()
}

/// A root over these type rows that uses the last of them.
fn use_rows(maker: &mut Maker) {
    let none = maker.singles(&[]);
    let last = maker.types.len() - 1;
    let body = maker.slot(0);
    let parameters = maker.pairs(&[(0, last)]);
    maker.roots.push((body as u64) << 50 | (last as u64) << 36 | (parameters as u64) << 22);
    let _ = none;
}

/// Packs made to be dear, by name.
pub fn hostile() -> Vec<(&'static str, Vec<u8>)> {
    let mut all = vec![("an empty pack", Maker::new().bytes())];

    let mut maker = Maker::new();
    maker.type_row(1, 0, 0);
    while maker.words.len() + 5 <= 8170 && maker.types.len() < 2048 {
        let before = maker.types.len() - 1;
        let list = maker.pairs(&[(0, before), (1, before)]);
        maker.type_row(5, 0, list);
    }
    use_rows(&mut maker);
    all.push(("records that each hold the row before twice", maker.bytes()));

    let mut maker = Maker::new();
    maker.type_row(1, 0, 0);
    let list = maker.pairs(&(0..4080).map(|n| (n, 0)).collect::<Vec<_>>());
    for _ in 1..2048 {
        maker.type_row(5, 0, list);
    }
    use_rows(&mut maker);
    all.push(("2,047 records over one list of 4,080 pairs", maker.bytes()));

    let mut maker = Maker::new();
    maker.type_row(1, 0, 0);
    maker.type_row(0, 0, 0);
    for n in 0..1021 {
        let list = maker.singles(&[0, 0, 0, 0, 0, 0, n % (n + 2)]);
        maker.type_row(6, 0, list);
    }
    use_rows(&mut maker);
    all.push(("1,021 functions that differ in their last parameter", maker.bytes()));

    // Overlapping lists: each starts one word later, and every word is a count that fits.
    let mut maker = Maker::new();
    maker.type_row(1, 0, 0);
    while maker.types.len() < 1024 {
        maker.type_row(1, 0, 0);
    }
    maker.words = vec![1000; 2100];
    for k in 0..1020 {
        maker.type_row(6, 0, k);
    }
    use_rows(&mut maker);
    all.push(("1,020 functions over lists that overlap", maker.bytes()));

    let mut maker = Maker::new();
    let unit = maker.type_row(1, 0, 0);
    let list = maker.singles(&vec![0; 8100]);
    maker.literal(7);
    for _ in 1..4096 {
        maker.expression(2, 0, list, 0, 0);
    }
    maker.root(4095, unit, &[]);
    all.push(("4,095 blocks over one list of 8,100 statements", maker.bytes()));

    let mut maker = Maker::new();
    let none = maker.singles(&[]);
    let variants = maker.pairs(&(0..4080).map(|n| (n, none)).collect::<Vec<_>>());
    for _ in 0..512 {
        maker.definition(0, 0, variants);
    }
    all.push(("512 enums over one list of 4,080 variants", maker.bytes()));

    let mut maker = Maker::new();
    let none = maker.singles(&[]);
    for d in 0..512 {
        maker.type_row(4, (d + 1) % 512, none);
    }
    for d in 0..512 {
        let list = maker.pairs(&[(0, d)]);
        maker.definition(1, 0, list);
    }
    all.push(("a cycle of 512 definitions", maker.bytes()));

    let mut maker = Maker::new();
    let none = maker.singles(&[]);
    for d in 0..512 {
        maker.type_row(4, d, none);
    }
    for d in 0..512usize {
        let fields: Vec<(usize, usize)> =
            (0..7).map(|k| (k, (d * (k + 3) + 1 + k) % 512)).filter(|(_, t)| *t > d).collect();
        let list = maker.pairs(&fields);
        maker.definition(1, 0, list);
    }
    all.push(("512 definitions that lead to 7 others each", maker.bytes()));

    all.push(("a match of 1,300 arms on 1,300 variants", model::exhaustive::wide_match(1300, 1300).bytes()));
    all.push(("a record of 2,000 fields, given backward", model::exhaustive::wide_record(2000, 2000).bytes()));
    all.push(("1,020 times the last of 3,570 fields", model::exhaustive::many_accesses(3570, 1020).bytes()));
    all.push(("1,984 times the last of 4,050 fields", model::exhaustive::nested_accesses(4050, 62, 32).bytes()));
    all.push(("670 matches of `_` on 2,000 variants", model::exhaustive::many_matches(2000, 670, 0).bytes()));
    all.push((
        "a match of 1,000 arms of the last of 2,040 variants",
        model::exhaustive::many_matches(2040, 1, 1000).bytes(),
    ));
    all.push(("a root of 2,048 variables", model::exhaustive::many_variables(2048, 7).bytes()));
    all.push(("64 deep", model::exhaustive::deep(64).bytes()));
    all.push(("1,024 values over one list of all", values_pack(&vec![(0..1024).collect(); 1024])));
    all
}

/// Scripts of union-find by name: pairs to join, and the variables that are then found, in order.
pub fn scripts() -> Vec<(&'static str, Vec<(usize, usize)>, Vec<usize>)> {
    const N: usize = 2048;
    let mut random = Random::new(11);
    let all: Vec<usize> = (0..N).collect();
    let chain = (0..N - 1).map(|v| (v, v + 1)).collect();
    let star = (0..N - 1).map(|v| (v, N - 1)).collect();
    // Each variable once, to a larger one: no loop.
    let forest = (0..N - 1).map(|v| (v, v + 1 + random.below(N - v - 1))).collect();
    let asks: Vec<usize> = (0..4 * N).map(|_| random.below(N)).collect();
    vec![("chain, found from its end", chain, all.clone()), ("star", star, all), ("random trees", forest, asks)]
}

//! The parts of a run: which inputs, and who is asked.

use crate::Plan;
use crate::cells;
use crate::guarded;
use crate::tally::{Tally, Whose};
use model::exhaustive;
use model::generate::{self, Rowing, Style};
use model::make::Maker;
use model::random::Random;
use model::{Answer, Pack};

/// A well-formed pack, or nothing.
#[cfg(roto)]
fn well_formed(bytes: &[u8]) -> Option<Pack<'_>> {
    let pack = Pack::read(bytes).ok()?;
    model::formed::formed(&pack).ok()?;
    Some(pack)
}

/// One in so many of the inputs of a table.
fn thinned<'a>(plan: &Plan, ask: &'a mut dyn FnMut(Vec<u8>)) -> impl FnMut(Vec<u8>) + 'a {
    let (thin, mut nth) = (plan.thin.max(1), 0);
    move |bytes| {
        if nth % thin == 0 {
            ask(bytes);
        }
        nth += 1;
    }
}

/// Asks for the order: text and reference, and the library with areas around the needed size.
fn ask_order(plan: &Plan, tally: &mut Tally, bytes: &[u8]) {
    let wanted = model::order(bytes, usize::MAX);
    tally.answer(Whose::Reference, &wanted);
    #[cfg(roto)]
    if let Some(pack) = well_formed(bytes) {
        let text = crate::roto::order(&pack);
        tally.answer(Whose::Text, &text);
        tally.same("text and reference", &text, &wanted, bytes);
    }
    if plan.entries {
        let needed = Pack::read(bytes).map_or(0, |p| 2 * p.counts.values);
        for size in sizes(needed) {
            let wanted = model::order(bytes, size);
            let (came, stays) = guarded::order(bytes, size, wanted.as_deref().unwrap_or(&[]));
            tally.answer(Whose::Library, &came);
            tally.same(&format!("order in {size} bytes"), &came, &wanted.map(|_| ()), bytes);
            if !stays {
                tally.differs(&format!("the area of {size} bytes after the order"), bytes);
            }
        }
    }
}

/// Sizes of an area around the needed one.
fn sizes(needed: usize) -> [usize; 4] {
    [needed, needed.saturating_sub(1), needed + 5, needed / 2]
}

fn ask_types(plan: &Plan, tally: &mut Tally, bytes: &[u8]) {
    let wanted = model::check_types(bytes);
    tally.answer(Whose::Reference, &wanted);
    #[cfg(roto)]
    if let Some(pack) = well_formed(bytes)
        && !matches!(model::types::faults(&pack), (Some(_), Some(_)))
        && let Some(text) = crate::roto::types(&pack)
    {
        // The text gives no place.
        let place = wanted.err().map_or(0, |r| r.place);
        let text = text.map_err(|number| model::Refusal { number, place, detail: 0 });
        tally.answer(Whose::Text, &text);
        tally.same("text and reference", &text, &wanted, bytes);
    }
    if plan.entries {
        let came = guarded::types(bytes);
        tally.answer(Whose::Library, &came);
        tally.same("types", &came, &wanted, bytes);
    }
}

fn ask_root(plan: &Plan, tally: &mut Tally, bytes: &[u8], root: u64, all_sizes: bool) {
    let wanted: Answer<Vec<(usize, u32)>> = model::check_root(bytes, root, usize::MAX);
    tally.answer(Whose::Reference, &wanted);
    #[cfg(roto)]
    if let Some(pack) = well_formed(bytes)
        && root < pack.counts.roots as u64
        && let Some(text) = crate::roto::root(&pack, root as usize)
    {
        tally.answer(Whose::Text, &text);
        tally.same("text and reference", &text, &wanted, bytes);
    }
    if plan.entries && plan.root {
        let needed = Pack::read(bytes).map_or(0, |p| 4 * p.counts.expressions);
        for size in &sizes(needed)[..if all_sizes { 4 } else { 1 }] {
            let wanted = model::check_root(bytes, root, *size);
            let (came, stays) = guarded::root(bytes, root, *size, wanted.as_deref().unwrap_or(&[]));
            tally.answer(Whose::Library, &came);
            tally.same(&format!("root {root} in {size} bytes"), &came, &wanted.map(|_| ()), bytes);
            if !stays {
                tally.differs(&format!("the area of {size} bytes after root {root}"), bytes);
            }
        }
    }
}

/// Scripts of union-find: every short one over two variables, then random ones.
pub fn cells(plan: &Plan) -> bool {
    let mut tally = Tally::new("cells");
    let ask = |tally: &mut Tally, script: &[cells::Operation]| {
        tally.input();
        cells::ask(tally, script);
    };
    cells::short(|script| ask(&mut tally, script));
    for run in 0..plan.runs {
        let script = cells::script(&mut Random::new(plan.seed << 32 | run));
        ask(&mut tally, &script);
    }
    tally.close()
}

/// Orders of values: every graph of at most three, then random ones.
pub fn order(plan: &Plan) -> bool {
    let mut tally = Tally::new("order");
    let ask = |tally: &mut Tally, bytes: Vec<u8>| {
        tally.input();
        ask_order(plan, tally, &bytes);
    };
    exhaustive::graphs(thinned(plan, &mut |bytes| ask(&mut tally, bytes)));
    for run in 0..plan.runs {
        let mut random = Random::new(plan.seed << 32 | run);
        let most = if random.one_in(50) { 300 } else { 14 };
        let n = random.below(most);
        let mut maker = Maker::new();
        generate::values(&mut random, &mut maker, n);
        ask(&mut tally, maker.bytes());
    }
    tally.close()
}

/// Tables of types: every small one, then random ones.
pub fn types(plan: &Plan) -> bool {
    let mut tally = Tally::new("types");
    let ask = |tally: &mut Tally, bytes: Vec<u8>| {
        tally.input();
        ask_types(plan, tally, &bytes);
    };
    exhaustive::definitions(thinned(plan, &mut |bytes| ask(&mut tally, bytes)));
    for run in 0..plan.runs {
        let mut random = Random::new(plan.seed << 32 | run);
        let mut maker = Maker::new();
        let rowing = if random.one_in(3) { Rowing::Mixed } else { Rowing::Clean };
        generate::tables(&mut random, &mut maker, rowing);
        ask(&mut tally, maker.bytes());
    }
    tally.close()
}

/// Roots: every operator with every class of operands, every short match and record, then random ones, and copies with
/// one thing changed.
pub fn roots(plan: &Plan) -> bool {
    let mut tally = Tally::new("roots");
    let mut ask = |bytes: Vec<u8>| {
        tally.input();
        ask_root(plan, &mut tally, &bytes, 0, false);
    };
    exhaustive::operators(thinned(plan, &mut ask));
    exhaustive::matches(thinned(plan, &mut ask));
    exhaustive::records(&mut ask);
    for run in 0..plan.runs {
        let mut random = Random::new(plan.seed << 32 | run);
        let style = Style::any(&mut random);
        let mut bytes = generate::roots(&mut random, style).bytes();
        for changed in 0..3 {
            if changed > 0 {
                generate::semantic(&mut random, &mut bytes);
            }
            for root in 0..style.roots as u64 {
                tally.input();
                ask_root(plan, &mut tally, &bytes, root, random.one_in(16));
            }
        }
    }
    tally.close()
}

/// Damaged copies of packs, asked of every entry; root numbers up to the largest.
pub fn bytes(plan: &Plan) -> bool {
    let mut tally = Tally::new("bytes");
    for run in 0..plan.runs {
        let mut random = Random::new(plan.seed << 32 | run);
        let style = Style::any(&mut random);
        let mut maker = generate::roots(&mut random, style);
        let n = random.below(8);
        generate::values(&mut random, &mut maker, n);
        let mut bytes = maker.bytes();
        generate::damage(&mut random, &mut bytes);
        tally.input();
        ask_types(plan, &mut tally, &bytes);
        ask_order(plan, &mut tally, &bytes);
        for root in [0, 1, style.roots as u64, 1 << 16, 1 << 32, u64::MAX] {
            ask_root(plan, &mut tally, &bytes, root, random.one_in(8));
        }
    }
    tally.close()
}

/// Packs at the limits, and lets in every place, asked of every entry.
pub fn limits(plan: &Plan) -> bool {
    let mut tally = Tally::new("limits");
    let mut ask = |bytes: Vec<u8>| {
        tally.input();
        ask_types(plan, &mut tally, &bytes);
        ask_order(plan, &mut tally, &bytes);
        for root in [0, 255, 256] {
            ask_root(plan, &mut tally, &bytes, root, true);
        }
    };
    exhaustive::limits(&mut ask);
    exhaustive::lets(&mut ask);
    ask(exhaustive::many_accesses(100, 100).bytes());
    ask(exhaustive::nested_accesses(100, 62, 20).bytes());
    ask(exhaustive::many_matches(60, 20, 3).bytes());
    tally.close()
}

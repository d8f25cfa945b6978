//! Guards: nothing outside the area is written, nothing inside it but the report, place and detail always.

#[path = "../diff/src/guarded.rs"]
mod guarded;

use model::generate::{self, Rowing, Style};
use model::random::Random;
use model::{Pack, Refusal};

/// Some packs with roots and values, well-typed for the most part.
fn packs() -> Vec<Vec<u8>> {
    (0..40)
        .map(|seed| {
            let mut random = Random::new(seed);
            let style = Style { slips: 80 * (seed as usize % 2), depth: 7, nodes: 20, roots: 3, rowing: Rowing::Clean };
            let mut maker = generate::roots(&mut random, style);
            generate::values(&mut random, &mut maker, seed as usize % 9);
            maker.bytes()
        })
        .collect()
}

#[test]
fn areas_of_every_size() {
    let (mut reports, mut too_short) = (0, 0);
    for pack in packs() {
        let counts = Pack::read(&pack).expect("a pack").counts;
        for size in 0..=4 * counts.expressions + 9 {
            let wanted = model::check_root(&pack, 0, size);
            let (came, stays) = guarded::root(&pack, 0, size, wanted.as_deref().unwrap_or(&[]));
            assert!(stays, "the area of {size} bytes, or the guards around it");
            assert_eq!(came, wanted.map(|_| ()), "root 0 in {size} bytes");
            reports += usize::from(came.is_ok());
            too_short += usize::from(came == Err(Refusal { number: 6, place: 0, detail: 0 }));
        }
        for size in 0..=2 * counts.values + 9 {
            let wanted = model::order(&pack, size);
            let (came, stays) = guarded::order(&pack, size, wanted.as_deref().unwrap_or(&[]));
            assert!(stays, "the area of {size} bytes, or the guards around it");
            assert_eq!(came, wanted.map(|_| ()), "the order in {size} bytes");
        }
    }
    assert!(reports > 100 && too_short > 1000, "{reports} reports, {too_short} areas too short");
}

#[test]
fn root_numbers_up_to_the_largest() {
    for pack in packs() {
        let area = 4 * Pack::read(&pack).expect("a pack").counts.expressions;
        let near = |n: u64| [n.wrapping_sub(1), n, n.wrapping_add(1)];
        let numbers = (0..6).chain([1 << 8, 1 << 14, 1 << 16, 1 << 31, 1 << 32, 1 << 63].into_iter().flat_map(near));
        for root in numbers.chain([u64::MAX - 1, u64::MAX, 0x1_0000_0000, 0xFFFF_FFFF_0000_0000]) {
            let wanted = model::check_root(&pack, root, area);
            let (came, stays) = guarded::root(&pack, root, area, wanted.as_deref().unwrap_or(&[]));
            assert!(stays);
            assert_eq!(came, wanted.map(|_| ()), "root {root}");
        }
    }
}

/// A pack may be cut anywhere, and stand at the end of what can be read.
#[test]
fn packs_cut_anywhere() {
    for pack in packs().into_iter().take(6) {
        for length in 0..pack.len() {
            // An allocation of exactly this length.
            let cut = pack[..length].to_vec().into_boxed_slice();
            assert_eq!(guarded::types(&cut), model::check_types(&cut), "{length} bytes");
            assert_eq!(guarded::order(&cut, 64, &[]).0, model::order(&cut, 64).map(|_| ()), "{length} bytes");
            assert_eq!(guarded::root(&cut, 0, 64, &[]).0, model::check_root(&cut, 0, 64).map(|_| ()), "{length} bytes");
        }
    }
}

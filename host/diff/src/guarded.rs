//! Calls of the library with guards: the area stands between guard bytes and holds a pattern, place and detail are
//! poisoned, and after the call every byte is looked at.

use model::{Answer, Refusal};
use rulepack::entries;

const GUARD: usize = 64;

/// A byte of the pattern that the area holds before. No two neighbours are equal.
fn pattern(i: usize) -> u8 {
    (i * 151 + 89) as u8
}

/// The numbers that a call gave, place and detail poisoned before it.
fn told(call: impl FnOnce(*mut u32, *mut u64) -> u32) -> Answer<()> {
    let (mut place, mut detail) = (0xDEAD_BEEF, 0xDEAD_BEEF_DEAD_BEEF);
    let number = call(&mut place, &mut detail);
    if number == 0 {
        assert_eq!((place, detail), (0, 0), "a report writes place 0 and detail 0");
        return Ok(());
    }
    Err(Refusal { number, place, detail })
}

/// Calls with an area of `size` bytes between guards, and holds what is written to what is wanted: byte by place.
fn with_area(
    size: usize,
    call: impl FnOnce(*mut u8, *mut u32, *mut u64) -> u32,
    wanted: impl FnOnce(&Answer<()>, &mut [u8]),
) -> (Answer<()>, bool) {
    let mut bytes: Vec<u8> = (0..size + 2 * GUARD).map(pattern).collect();
    let mut after = bytes.clone();
    let area = bytes[GUARD..GUARD + size].as_mut_ptr();
    let answer = told(|place, detail| call(area, place, detail));
    wanted(&answer, &mut after[GUARD..GUARD + size]);
    (answer, bytes == after)
}

pub fn types(pack: &[u8]) -> Answer<()> {
    // SAFETY: see rulepack's own call.
    told(|place, detail| unsafe { entries::rulepack_types(pack.as_ptr(), pack.len(), place, detail) })
}

/// The answer, and whether every byte of the area is what `words` says, or the pattern.
pub fn root(pack: &[u8], root: u64, size: usize, words: &[(usize, u32)]) -> (Answer<()>, bool) {
    with_area(
        size,
        // SAFETY: see rulepack's own call; the area is inside a longer one.
        |area, place, detail| unsafe {
            entries::rulepack_root(pack.as_ptr(), pack.len(), root, area, size, place, detail)
        },
        |answer, area| {
            if answer.is_ok() {
                for (node, word) in words {
                    if let Some(bytes) = area.get_mut(4 * node..4 * node + 4) {
                        bytes.copy_from_slice(&word.to_be_bytes());
                    }
                }
            }
        },
    )
}

/// The same of an order.
pub fn order(pack: &[u8], size: usize, listed: &[usize]) -> (Answer<()>, bool) {
    with_area(
        size,
        // SAFETY: see rulepack's own call; the area is inside a longer one.
        |area, place, detail| unsafe { entries::rulepack_order(pack.as_ptr(), pack.len(), area, size, place, detail) },
        |answer, area| {
            if answer.is_ok() {
                for (i, v) in listed.iter().enumerate() {
                    if let Some(bytes) = area.get_mut(2 * i..2 * i + 2) {
                        bytes.copy_from_slice(&(*v as u16).to_be_bytes());
                    }
                }
            }
        },
    )
}

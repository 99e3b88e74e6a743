//! A group's order from precedence pairs (S-6): "Take up to 32 accesses numbered
//! from 0 and up to 64 pairs, the first of a pair to come before the second; give
//! the order that respects all pairs and is first when orders are compared by
//! access number from the left."

use crate::refusal;
use crate::table::{Access, Group};

/// "Up to 32 accesses numbered from 0."
pub const MAX_LISTED: u32 = 32;
/// "Up to 64 pairs"; repeated ones and self-pairs count each time.
pub const MAX_PAIRS: usize = 64;
/// The most accesses that [`brute_force`] takes.
pub const MAX_BRUTE_FORCE: u32 = 8;

/// A precedence pair: "the first of a pair to come before the second". The paper
/// calls it a pair, as it does offset and port of an access.
#[derive(Clone, Copy, Debug, PartialEq, Eq, PartialOrd, Ord)]
pub struct Precedence {
    /// The access that comes before the other.
    pub first: u32,
    /// The access that comes after the other.
    pub second: u32,
}

/// "43: more than 32 accesses or 64 pairs, or a pair naming an access not
/// listed." Those listed are the numbers below `accesses`.
fn check_range(accesses: u32, pairs: &[Precedence]) -> Result<(), u8> {
    let listed = |pair: &Precedence| pair.first < accesses && pair.second < accesses;
    let fits = accesses <= MAX_LISTED && pairs.len() <= MAX_PAIRS && pairs.iter().all(listed);
    fits.then_some(()).ok_or(refusal::UNLISTED)
}

/// The accesses in "the order that respects all pairs and is first when orders
/// are compared by access number from the left": the smallest access that need
/// not wait for another comes next, until none is left.
///
/// # Errors
/// 43 as the paper has it, then "44: a circle, after 43": those left all wait for
/// one another. "An access paired with itself is a circle": it waits for itself.
pub fn order(accesses: u32, pairs: &[Precedence]) -> Result<Vec<u8>, u8> {
    check_range(accesses, pairs)?;
    let mut left: Vec<u32> = (0..accesses).collect();
    let mut order = Vec::new();
    while !left.is_empty() {
        let waits = |access: u32| {
            let mut before = pairs.iter().filter(|pair| pair.second == access);
            before.any(|pair| left.contains(&pair.first))
        };
        let next = left.iter().position(|&access| !waits(access));
        let next = next.ok_or(refusal::CIRCLE)?;
        order.push(left.remove(next) as u8);
    }
    Ok(order)
}

/// The same by trying: goes through all orders of the accesses, compared "by
/// access number from the left", and gives the first that respects all pairs. Only
/// for up to [`MAX_BRUTE_FORCE`] accesses, which have 40,320 orders. It has nothing
/// in common with [`order`] but the check of 43.
///
/// # Errors
/// 43 as the paper has it; 44 when no order respects all pairs.
///
/// # Panics
/// When 43 does not apply and there are more than [`MAX_BRUTE_FORCE`] accesses.
pub fn brute_force(accesses: u32, pairs: &[Precedence]) -> Result<Vec<u8>, u8> {
    check_range(accesses, pairs)?;
    assert!(accesses <= MAX_BRUTE_FORCE, "too many orders to try");
    let mut tried: Vec<u8> = (0..accesses as u8).collect();
    while !respects(&tried, pairs) {
        if !step(&mut tried) {
            return Err(refusal::CIRCLE);
        }
    }
    Ok(tried)
}

/// Whether the first of each pair comes before the second; an access never comes
/// before itself.
fn respects(order: &[u8], pairs: &[Precedence]) -> bool {
    let place = |access: u32| order.iter().position(|&a| u32::from(a) == access);
    pairs
        .iter()
        .all(|pair| place(pair.first) < place(pair.second))
}

/// Changes an order to the one that follows it when orders are compared by access
/// number from the left; false, and nothing changed, for the last, which falls
/// throughout.
fn step(order: &mut [u8]) -> bool {
    let Some(rise) = (1..order.len()).rev().find(|&i| order[i - 1] < order[i]) else {
        return false;
    };
    // All from `rise` on falls: the least there that is greater than the access in
    // front of it comes to its place, and the others follow from the smallest.
    let (front, falling) = order.split_at_mut(rise);
    let changed = &mut front[rise - 1];
    let greater = falling.iter_mut().rev().find(|access| **access > *changed);
    std::mem::swap(changed, greater.expect("at least the one that rises"));
    falling.reverse();
    true
}

/// The group whose accesses, given by kind and port in the order of their numbers,
/// come in this order: "A load's offset counts the group's stores before it; a
/// store's counts the loads before it." Nothing is checked of the group; more than
/// 16 loads or stores, or a port that is wrong, is for the table to refuse.
///
/// # Panics
/// When the order names an access that is not among `accesses`.
#[must_use]
pub fn group(order: &[u8], accesses: &[Access]) -> Group {
    let access = |&number: &u8| accesses[usize::from(number)];
    let in_order: Vec<Access> = order.iter().map(access).collect();
    Group::from_order(&in_order)
}

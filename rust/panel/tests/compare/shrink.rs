//! Cases that fail are made small before they are printed.

use std::fmt::Debug;

use second::generate::Order;

/// What a case must keep: an error says how it doesn't.
pub type Kept = Result<(), String>;

/// Fails with the smallest list, found by leaving out items, that doesn't keep the law.
pub fn list_keeps<T: Clone + Debug>(items: &[T], law: impl Fn(&[T]) -> Kept) {
    if law(items).is_ok() {
        return;
    }
    let small = smallest_list(items, |items| law(items).is_err());
    let why = law(&small).unwrap_err();
    panic!("{why}\n  for {small:02x?}");
}

/// Fails with what a case that can't be made smaller doesn't keep.
pub fn keeps(kept: Kept) {
    if let Err(why) = kept {
        panic!("{why}");
    }
}

/// Leaves out parts, halves first and single items last, as long as the list still fails.
fn smallest_list<T: Clone>(items: &[T], fails: impl Fn(&[T]) -> bool) -> Vec<T> {
    let mut small = items.to_vec();
    let mut part = small.len().div_ceil(2);
    while part > 0 {
        let mut at = 0;
        while at < small.len() {
            let mut less = small.clone();
            less.drain(at..small.len().min(at + part));
            if fails(&less) {
                small = less;
            } else {
                at += part;
            }
        }
        part /= 2;
    }
    small
}

/// Fails with the smallest order that doesn't keep the law: points dropped from the end, then marks
/// and scale.
pub fn order_keeps(order: &Order, law: impl Fn(&Order) -> Kept) {
    if law(order).is_ok() {
        return;
    }
    let small = (3..order.n)
        .map(|n| order.shortened(n))
        .find(|shorter| law(shorter).is_err())
        .unwrap_or_else(|| order.clone());
    let plain = small.plain();
    let small = if law(&plain).is_err() { plain } else { small };
    let why = law(&small).unwrap_err();
    panic!("{why}\n  for {small:?}\n  in bytes {:02x?}", small.bytes());
}

//! Refusals in words. The words of the numbers are the bindings'.

use digarumbi::{Reason, Refusal};

/// `refused 10 at 2626: cell index not below the product, or seen before`
pub fn sentence(refusal: &Refusal) -> String {
    format!("{refusal}: {}", refusal.text())
}

/// `refused 19 at 0: no dimension Spine`: the words of 19 don't say which one was asked for.
pub fn no_dimension(asked: &str) -> String {
    let refusal = Refusal { number: Reason::NoSuchLeaf.number(), place: 0, nodes: 0, cells: 0 };
    format!("{refusal}: no dimension {asked}")
}

//! Of two strake lists the one that governs a bin with two products.

/// The answer due: 1 for the first list, 2 for the second, 0 for an empty part of the first.
pub fn answer(first: &[u32], second: &[u32]) -> u32 {
    match (first.last(), second.last()) {
        _ if first.len() != second.len() => 0,
        (Some(one), Some(other)) if other > one => 2,
        (Some(_), Some(_)) => 1,
        _ => 0,
    }
}

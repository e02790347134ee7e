//! Pages whose lines are wrapped.

/// One space between words, so that what is wrapped reads as one.
pub fn unwrapped(page: &str) -> String {
    page.split_whitespace().collect::<Vec<&str>>().join(" ")
}

//! Stands in for the original's module of this name, whose many other error
//! types would drag in further crates. Reading a manifest never makes this error.

pub enum DeserializationError {
    Truncated {
        what: &'static str,
        offset: u64,
        need: usize,
        have: usize,
    },
}

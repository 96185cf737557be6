//! The forms in which a session is printed.

/// How a session is printed.
#[derive(Clone, Copy, Debug, PartialEq, Eq)]
pub enum Form {
    Text,
    /// Frames after `>` and answers after `<`, as they were sent; of this tool's own command after
    /// `own>` and `own<`, of the library after `library>` and `library<`.
    Frames,
    /// One JSON document.
    Json,
    Csv,
}

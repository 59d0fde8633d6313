//! The text notation, as Rodin and Camille write it: context, machine and refinement in one text.

pub mod formulas;
pub mod layout;
pub mod numbering;
pub mod parse;
pub mod syntax;
pub mod token;
pub mod write;

/// What is wrong with a text, and where.
#[derive(Clone, Debug, PartialEq, Eq)]
pub struct Mistake {
    /// An offset in bytes.
    pub at: usize,
    pub message: String,
}

impl Mistake {
    pub fn new(at: usize, message: &str) -> Mistake {
        Mistake {
            at,
            message: message.to_string(),
        }
    }
}

/// The line and the column of an offset, both counted from 1, columns in characters. A byte order mark is none.
pub fn place(text: &str, at: usize) -> (usize, usize) {
    let before = &text[..at.min(text.len())];
    let start = before.rfind('\n').map_or(0, |end| end + 1);
    let line = before.matches('\n').count() + 1;
    let before = before[start..].trim_start_matches('\u{feff}');
    (line, before.chars().count() + 1)
}

/// The offsets at which the lines of a text begin.
pub fn line_starts(text: &str) -> Vec<usize> {
    let ends = text.match_indices('\n').map(|(end, _)| end + 1);
    [0].into_iter().chain(ends).collect()
}

//! How a row is printed: as a sentence, or as numbers with commas between them, for scripts.

#[derive(Clone, Copy)]
pub enum Form {
    Sentences,
    /// A line of names first, the `COLUMNS` of the benchmark, then a line for each row. What a row doesn't have is left empty.
    Csv,
}

//! Plans rounded to whole numbers, as docs/OPTIMISERS.md has them: what it adds to 28, 29 and 33, and its example.

pub mod bounds;
pub mod errors;
pub mod example;

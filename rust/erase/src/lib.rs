//! Erases the contracts of Rattle source (`.rt`), and leaves Rust (`.rs`). The crates become modules of the crate that
//! includes them, so that a function whose condition was a contract is never public.
//!
//! docs/develop/ERASER.md says what is cut and what is put in its place. Anything else stops the eraser, with its file and
//! line.

mod build;
mod crates;
mod edit;
mod fault;
mod imports;
mod items;
mod lending;
mod token;
mod words;
mod write;

pub use build::{build, build_all, build_library};
pub use crates::{Crates, ErasedFile};
pub use edit::{Cut, What};
pub use fault::Stop;
pub use items::Call;
pub use lending::lending;
pub use write::write;

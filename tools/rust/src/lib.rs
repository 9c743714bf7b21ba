#![doc = include_str!("../README.md")]

mod error;
mod reply;
mod session;
mod text;

pub use error::{Error, Result};
pub use reply::{Content, Progress, Published, Record, Reply, Stats, Trap, Version, Versions};
pub use session::{program_path, Session};
pub use text::{is_silent, split_input};

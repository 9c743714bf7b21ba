//! What goes wrong.
use crate::Trap;
use std::fmt;

/// What a call of this crate gives.
pub type Result<T> = std::result::Result<T, Error>;

/// Why a command gave no result, or a session no reply.
#[derive(Debug)]
#[non_exhaustive]
pub enum Error {
    /// The run or query trapped, and nothing was published.
    Trapped(Trap),
    /// The command was refused and changed nothing: the kind, such as `version` or `arguments`.
    Refused(String),
    /// The program has a fault: its kind, its line from 1, and what stands in that line.
    ProgramRefused {
        /// The kind of the fault, such as `unknown`.
        kind: String,
        /// The line of the program, from 1.
        line: usize,
        /// What stands in that line; nothing where the fault is the end.
        text: String,
    },
    /// The program refuses an image: the number of the first rule that it breaks.
    ImageRefused(u8),
    /// The process ended before it replied: its status, or none where a signal ended it.
    Ended(Option<i32>),
    /// A text that is no reply to what was sent.
    UnknownReply(String),
    /// A command of several lines or of none, or a program that has a separator line.
    WrongText(&'static str),
    /// There was no memory, and the session is gone (of a library in this process).
    NoMemory,
    /// The process could not be started, written to or read from.
    Io(std::io::Error),
}

impl Error {
    /// What the first line says where it is not that of an accepted program.
    pub fn of_program(first: &str, program: &str) -> Error {
        let words: Vec<&str> = first.split(' ').collect();
        match words.as_slice() {
            ["refused", kind, "at", line] => match line.parse::<usize>() {
                Ok(line) if line > 0 => {
                    let text = program.lines().nth(line - 1).unwrap_or("").trim().to_string();
                    Error::ProgramRefused { kind: kind.to_string(), line, text }
                }
                _ => Error::UnknownReply(first.to_string()),
            },
            _ => Error::UnknownReply(first.to_string()),
        }
    }
}

impl fmt::Display for Error {
    fn fmt(&self, f: &mut fmt::Formatter<'_>) -> fmt::Result {
        match self {
            Error::Trapped(trap) => write!(f, "trap {} at {}", trap.kind, trap.line),
            Error::Refused(kind) => write!(f, "refused {kind}"),
            Error::ProgramRefused { kind, line, text } if text.is_empty() => write!(f, "refused {kind} at {line}"),
            Error::ProgramRefused { kind, line, text } => write!(f, "refused {kind} at {line}: {text}"),
            Error::ImageRefused(rule) => write!(f, "refused image {rule}"),
            Error::Ended(Some(status)) => write!(f, "the program ended with status {status}"),
            Error::Ended(None) => write!(f, "the program was ended by a signal"),
            Error::UnknownReply(text) => write!(f, "{text:?} is no reply to what was sent"),
            Error::WrongText(why) => f.write_str(why),
            Error::NoMemory => f.write_str("there is no memory"),
            Error::Io(error) => error.fmt(f),
        }
    }
}

impl std::error::Error for Error {
    fn source(&self) -> Option<&(dyn std::error::Error + 'static)> {
        match self {
            Error::Io(error) => Some(error),
            _ => None,
        }
    }
}

impl From<std::io::Error> for Error {
    fn from(error: std::io::Error) -> Self {
        Error::Io(error)
    }
}

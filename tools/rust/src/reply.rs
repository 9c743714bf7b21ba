//! The replies, and how they are read.
use crate::{Error, Result};
use std::fmt;

/// A run that was published as a version.
#[derive(Clone, Debug, PartialEq, Eq)]
pub struct Published {
    /// The number of the version.
    pub version: u32,
    /// The numbers that the run printed.
    pub printed: Vec<i64>,
}

/// A run or query that trapped at a line of the program.
#[derive(Clone, Debug, PartialEq, Eq)]
pub struct Trap {
    /// The kind, such as `null` or `budget`.
    pub kind: String,
    /// The line of the program, from 1.
    pub line: usize,
    /// The numbers that were printed before.
    pub printed: Vec<i64>,
}

/// Whether an open run has more to do.
#[derive(Clone, Copy, Debug, PartialEq, Eq)]
pub enum Progress {
    /// It has more to do than the charges granted so far reach for.
    Running,
    /// It has ended or trapped, or its whole budget was granted.
    Done,
}

/// What all runs made and wrote, and the bound on the store.
#[derive(Clone, Copy, Debug, PartialEq, Eq)]
pub struct Stats {
    /// Records that were made.
    pub records: u64,
    /// Pointers that were written.
    pub pointers: u64,
    /// Numbers that were written.
    pub values: u64,
    /// The bound on the store.
    pub bound: u64,
}

/// A version, and the one that it was made from.
#[derive(Clone, Copy, Debug, PartialEq, Eq)]
pub struct Version {
    /// Its number.
    pub number: u32,
    /// The version that it was made from; none of version 0.
    pub parent: Option<u32>,
}

/// The version tree.
#[derive(Clone, Debug, PartialEq, Eq)]
pub struct Versions(Vec<Option<u32>>);

impl Versions {
    /// How many versions there are, version 0 among them.
    #[allow(clippy::len_without_is_empty)]
    pub fn len(&self) -> usize {
        self.0.len()
    }

    /// The version that a version was made from.
    pub fn parent(&self, version: u32) -> Option<u32> {
        self.0.get(version as usize).copied().flatten()
    }

    /// All versions, from 0 on.
    pub fn iter(&self) -> impl DoubleEndedIterator<Item = Version> + ExactSizeIterator + '_ {
        self.0.iter().enumerate().map(|(number, &parent)| Version { number: number as u32, parent })
    }

    /// The way from a version to version 0, both among them.
    pub fn way_back(&self, version: u32) -> impl Iterator<Item = Version> + '_ {
        let first = ((version as usize) < self.0.len()).then_some(version);
        std::iter::successors(first, |&number| self.parent(number)).map(|number| Version { number, parent: self.parent(number) })
    }
}

impl IntoIterator for Versions {
    type Item = Version;
    type IntoIter = std::vec::IntoIter<Version>;

    fn into_iter(self) -> Self::IntoIter {
        self.iter().collect::<Vec<_>>().into_iter()
    }
}

/// What a field of a record holds.
#[derive(Clone, Copy, Debug, PartialEq, Eq)]
pub enum Content {
    /// A number.
    Number(i64),
    /// No record.
    Null,
    /// The record of the dump that has this number.
    Pointer(usize),
}

impl fmt::Display for Content {
    fn fmt(&self, f: &mut fmt::Formatter<'_>) -> fmt::Result {
        match self {
            Content::Number(it) => write!(f, "{it}"),
            Content::Null => f.write_str("null"),
            Content::Pointer(it) => write!(f, "@{it}"),
        }
    }
}

/// A record of a dump. The one of number 0 is that of the roots.
#[derive(Clone, Debug, PartialEq, Eq)]
pub struct Record {
    /// Its number in the dump.
    pub number: usize,
    /// The name of its type.
    pub type_name: String,
    /// What its fields hold: the numbers, and then the pointers.
    pub contents: Vec<Content>,
}

/// A reply to a line of a script. `to_string` gives it as the program writes it, without the last line feed.
#[derive(Clone, Debug, PartialEq, Eq)]
pub enum Reply {
    /// A run was published (`run`, `close`).
    Published(Published),
    /// A query came to its end, and printed these numbers (`query`).
    Answer(Vec<i64>),
    /// A run or query trapped, and nothing was published (`run`, `query`, `close`).
    Trapped(Trap),
    /// The command was refused and changed nothing: the kind.
    Refused(String),
    /// A run was opened under this number (`open`).
    Opened(u32),
    /// An open run went on (`call`, `step`).
    Went(u32, Progress),
    /// An open run was given up (`drop`).
    Dropped(u32),
    /// Runs and queries that come now may take so many charges (`budget`).
    Budget(u64),
    /// The version tree (`versions`).
    Versions(Versions),
    /// What all runs made and wrote (`stats`).
    Stats(Stats),
    /// The records of a version that its roots lead to (`dump`, behind an image).
    Dump(Vec<Record>),
    /// The version that changed what a path reads, where one did (`changed`, behind an image).
    Changed(Option<u32>),
}

impl Reply {
    /// The reply to a line, of its whole text; none where that is empty, since the line has none.
    pub fn of_text(line: &str, text: &str) -> Result<Option<Reply>> {
        let lines: Vec<String> = text.lines().map(String::from).collect();
        let (command, Some((last, before))) = (line.split_ascii_whitespace().next().unwrap_or_default(), lines.split_last()) else { return Ok(None) };
        if command == "versions" && !last.starts_with("refused ") {
            return read_versions(&lines).map(Some);
        }
        if command == "dump" && last == "ok" {
            let records = before.iter().map(|it| record(it).unwrap_or_else(|| Err(Error::UnknownReply(it.clone()))));
            return records.collect::<Result<_>>().map(|it| Some(Reply::Dump(it)));
        }
        let numbers = before.iter().map(|it| printed(it).unwrap_or_else(|| Err(Error::UnknownReply(it.clone()))));
        read(command, numbers.collect::<Result<_>>()?, last).map(Some)
    }
}

impl fmt::Display for Reply {
    fn fmt(&self, f: &mut fmt::Formatter<'_>) -> fmt::Result {
        let printed = match self {
            Reply::Published(Published { printed, .. }) | Reply::Answer(printed) | Reply::Trapped(Trap { printed, .. }) => printed.as_slice(),
            _ => &[],
        };
        for number in printed {
            writeln!(f, "| {number}")?;
        }
        match self {
            Reply::Published(it) => write!(f, "version {}", it.version),
            Reply::Answer(_) => f.write_str("ok"),
            Reply::Trapped(trap) => write!(f, "trap {} at {}", trap.kind, trap.line),
            Reply::Refused(kind) => write!(f, "refused {kind}"),
            Reply::Opened(run) => write!(f, "run {run}"),
            Reply::Went(run, Progress::Running) => write!(f, "run {run} running"),
            Reply::Went(run, Progress::Done) => write!(f, "run {run} done"),
            Reply::Dropped(run) => write!(f, "dropped {run}"),
            Reply::Budget(charges) => write!(f, "budget {charges}"),
            Reply::Versions(versions) => {
                f.write_str("0")?;
                versions.iter().filter_map(|it| it.parent.map(|parent| (it.number, parent))).try_for_each(|(it, parent)| write!(f, "\n{it} from {parent}"))
            }
            Reply::Dump(records) => {
                for record in records {
                    write!(f, "{} {}:", record.number, record.type_name)?;
                    record.contents.iter().try_for_each(|it| write!(f, " {it}"))?;
                    writeln!(f)?;
                }
                f.write_str("ok")
            }
            Reply::Changed(Some(version)) => write!(f, "changed {version}"),
            Reply::Changed(None) => f.write_str("never"),
            Reply::Stats(it) => write!(f, "records {} pointers {} values {} bound {}", it.records, it.pointers, it.values, it.bound),
        }
    }
}

/// A number of a reply. It is written in one way only.
fn number<T: std::str::FromStr + ToString>(word: &str) -> Option<T> {
    word.parse::<T>().ok().filter(|it| it.to_string() == word)
}

/// A printed number, where the line is that of one.
pub(crate) fn printed(line: &str) -> Option<Result<i64>> {
    line.strip_prefix("| ").map(|word| number(word).ok_or_else(|| Error::UnknownReply(line.to_string())))
}

/// A record of a dump, where the line is that of one.
pub(crate) fn record(line: &str) -> Option<Result<Record>> {
    line.starts_with(|it: char| it.is_ascii_digit()).then(|| read_record(line).ok_or_else(|| Error::UnknownReply(line.to_string())))
}

fn read_record(line: &str) -> Option<Record> {
    let mut words = line.split(' ');
    let content = |word: &str| match word.strip_prefix('@') {
        Some(it) => number(it).map(Content::Pointer),
        None if word == "null" => Some(Content::Null),
        None => number(word).map(Content::Number),
    };
    let (it, type_name) = (number(words.next()?)?, words.next()?.strip_suffix(':')?.to_string());
    Some(Record { number: it, type_name, contents: words.map(content).collect::<Option<_>>()? })
}

/// The reply to a command with this first word, of which these numbers were printed and this is the last line.
pub(crate) fn read(command: &str, printed: Vec<i64>, last: &str) -> Result<Reply> {
    let words: Vec<&str> = last.split(' ').collect();
    let kind = |word: &str| (!word.is_empty() && word.bytes().all(|byte| byte.is_ascii_lowercase())).then(|| word.to_string());
    let is_silent = printed.is_empty();
    let made = match (command, words.as_slice()) {
        ("run" | "close", ["version", it]) => number(it).map(|version| Reply::Published(Published { version, printed })),
        ("query", ["ok"]) => Some(Reply::Answer(printed)),
        ("run" | "query" | "close", ["trap", it, "at", line]) => {
            kind(it).zip(number(line)).map(|(kind, line)| Reply::Trapped(Trap { kind, line, printed }))
        }
        (_, ["refused", it]) if is_silent => kind(it).map(Reply::Refused),
        ("open", ["run", it]) if is_silent => number(it).map(Reply::Opened),
        ("call" | "step", ["run", it, "running"]) if is_silent => number(it).map(|run| Reply::Went(run, Progress::Running)),
        ("call" | "step", ["run", it, "done"]) if is_silent => number(it).map(|run| Reply::Went(run, Progress::Done)),
        ("changed", ["changed", it]) if is_silent => number(it).map(|version| Reply::Changed(Some(version))),
        ("changed", ["never"]) if is_silent => Some(Reply::Changed(None)),
        ("drop", ["dropped", it]) if is_silent => number(it).map(Reply::Dropped),
        ("budget", ["budget", it]) if is_silent => number(it).map(Reply::Budget),
        ("stats", ["records", records, "pointers", pointers, "values", values, "bound", bound]) if is_silent => {
            let read = || Some(Stats { records: number(records)?, pointers: number(pointers)?, values: number(values)?, bound: number(bound)? });
            read().map(Reply::Stats)
        }
        _ => None,
    };
    made.ok_or_else(|| Error::UnknownReply(last.to_string()))
}

/// The reply to `versions`.
pub(crate) fn read_versions(lines: &[String]) -> Result<Reply> {
    let mut parents: Vec<Option<u32>> = vec![];
    for line in lines {
        let words: Vec<&str> = line.split(' ').collect();
        let parent = match (parents.len(), words.as_slice()) {
            (0, ["0"]) => Some(None),
            (1.., [it, "from", parent]) if number::<usize>(it) == Some(parents.len()) => {
                number::<u32>(parent).filter(|&it| (it as usize) < parents.len()).map(Some)
            }
            _ => None,
        };
        parents.push(parent.ok_or_else(|| Error::UnknownReply(line.clone()))?);
    }
    if parents.is_empty() {
        return Err(Error::UnknownReply(String::new()));
    }
    Ok(Reply::Versions(Versions(parents)))
}

#[cfg(test)]
mod tests {
    use super::*;

    #[test]
    fn each_reply_is_read_and_written_the_same() {
        for (command, last) in [
            ("run", "version 1"), ("close", "version 12"), ("query", "ok"), ("run", "trap null at 3"), ("open", "run 7"), ("step", "run 7 running"),
            ("call", "run 7 done"), ("drop", "dropped 7"), ("budget", "budget 1000000000"), ("jump", "refused line"),
            ("stats", "records 1 pointers 2 values 3 bound 4"),
        ] {
            assert_eq!(read(command, vec![], last).unwrap().to_string(), last);
        }
        assert_eq!(read("query", vec![3, -4], "ok").unwrap().to_string(), "| 3\n| -4\nok");
        let lines: Vec<String> = ["0", "1 from 0", "2 from 0", "3 from 2"].map(String::from).to_vec();
        assert_eq!(read_versions(&lines).unwrap().to_string(), lines.join("\n"));
    }

    #[test]
    fn other_texts_are_no_replies() {
        for (command, last) in [
            ("query", "version 1"), ("run", "ok"), ("run", "version 01"), ("run", "version"), ("run", "version 1 "), ("run", ""),
            ("drop", "run 7"), ("budget", "budget -1"), ("run", "trap null at x"), ("run", "trap  at 3"), ("run", "refused KIND"),
        ] {
            assert!(matches!(read(command, vec![], last), Err(Error::UnknownReply(text)) if text == last), "{command} {last}");
        }
        assert!(read("stats", vec![1], "records 1 pointers 2 values 3 bound 4").is_err());
        for lines in [vec![], vec!["1 from 0"], vec!["0", "2 from 0"], vec!["0", "1 from 1"], vec!["0", "0"]] {
            assert!(read_versions(&lines.into_iter().map(String::from).collect::<Vec<_>>()).is_err());
        }
        assert!(matches!(printed("| x"), Some(Err(Error::UnknownReply(_)))));
        assert!(printed("ok").is_none());
    }

    #[test]
    fn versions_are_gone_over_in_both_ways() {
        let lines: Vec<String> = ["0", "1 from 0", "2 from 0", "3 from 2"].map(String::from).to_vec();
        let Ok(Reply::Versions(versions)) = read_versions(&lines) else { panic!() };
        assert_eq!(versions.len(), 4);
        assert_eq!(versions.iter().rev().map(|it| it.number).collect::<Vec<_>>(), [3, 2, 1, 0]);
        assert_eq!(versions.way_back(3).map(|it| it.number).collect::<Vec<_>>(), [3, 2, 0]);
        assert_eq!(versions.way_back(9).count(), 0);
        assert_eq!(versions.clone().into_iter().filter(|it| it.parent == Some(0)).count(), 2);
        assert_eq!((versions.parent(3), versions.parent(0), versions.parent(9)), (Some(2), None, None));
    }
}

#![doc = include_str!("../README.md")]

mod c;

pub use persist::{Content, Error, Progress, Published, Record, Reply, Result, Stats, Trap, Version, Versions};

const TRAPS: [&str; 8] = ["null", "indegree", "index", "overflow", "divide", "budget", "depth", "output"];
const REFUSALS: [&str; 10] = ["line", "number", "name", "arguments", "version", "run", "runs", "open", "calls", "old"];

/// A program with its versions, in this process. It stays on the thread that made it.
pub struct Session(c::Handle);

fn check(status: i32) -> Result<()> {
    match status {
        c::DONE => Ok(()),
        c::NO_MEMORY => Err(Error::NoMemory),
        _ => Err(Error::WrongText("the session is gone, or what it is given or has made is too much")),
    }
}

fn text_in(bytes: Vec<u8>) -> Result<String> {
    String::from_utf8(bytes).map_err(|error| Error::UnknownReply(error.to_string()))
}

// SAFETY of all calls: the handle began as null, and is changed by these functions alone; each slice has the length beside it, and none overlaps.
impl Session {
    /// Opens a session of a program.
    pub fn open(program: &str) -> Result<Session> {
        let mut session = Session(c::Handle { at: std::ptr::null_mut() });
        let (mut fault, mut told) = ([0; 64], 0);
        let status = unsafe { c::persist_open(&mut session.0, program.as_ptr(), program.len(), fault.as_mut_ptr(), fault.len(), &mut told) };
        if status == c::REFUSED {
            return Err(Error::of_program(text_in(fault[..told].to_vec())?.trim_end_matches('\n'), program));
        }
        check(status).map(|()| session)
    }

    /// Opens a session that goes on from the image at the front of the bytes, and says how many bytes that has.
    pub fn resume(image: &[u8]) -> Result<(Session, usize)> {
        let mut session = Session(c::Handle { at: std::ptr::null_mut() });
        let (mut used, mut rule) = (0, 0);
        let status = unsafe { c::persist_resume(&mut session.0, image.as_ptr(), image.len(), &mut used, &mut rule) };
        if status == c::REFUSED {
            return Err(Error::ImageRefused(rule as u8));
        }
        check(status).map(|()| (session, used))
    }

    /// Carries a line of a script out, and puts the text of its reply in the place of what a list holds: nothing, where it has none.
    pub fn say(&mut self, line: &[u8], text: &mut Vec<u8>) -> Result<()> {
        let mut reply = c::Reply::default();
        check(unsafe { c::persist_line(&mut self.0, line.as_ptr(), line.len(), &mut reply) })?;
        self.take_made(reply.length, text);
        Ok(())
    }

    /// Carries a line of a script out, and gives its reply, if it has one. Traps and refusals are replies.
    pub fn command(&mut self, line: &str) -> Result<Option<Reply>> {
        let mut text = vec![];
        self.say(line.as_bytes(), &mut text)?;
        Reply::of_text(line, &text_in(text)?)
    }

    /// Runs a procedure on a version.
    pub fn run(&mut self, version: u32, procedure: &str, arguments: &[i64]) -> Result<Published> {
        let mut printed = vec![];
        let version = self.run_into(version, procedure, arguments, &mut printed)?;
        Ok(Published { version, printed })
    }

    /// The same, with what was printed put in the place of what a list holds; the version that was made.
    pub fn run_into(&mut self, version: u32, procedure: &str, arguments: &[i64], printed: &mut Vec<i64>) -> Result<u32> {
        let mut reply = c::Reply::default();
        let (name, numbers) = (procedure.as_bytes(), arguments);
        check(unsafe { c::persist_run(&mut self.0, version, name.as_ptr(), name.len(), numbers.as_ptr(), numbers.len(), &mut reply) })?;
        self.take_printed(&reply, printed)?;
        Ok(reply.number as u32)
    }

    /// Asks a version; the numbers that the query printed.
    pub fn query(&mut self, version: u32, query: &str, arguments: &[i64]) -> Result<Vec<i64>> {
        let mut printed = vec![];
        self.query_into(version, query, arguments, &mut printed)?;
        Ok(printed)
    }

    /// The same, with what was printed put in the place of what a list holds.
    pub fn query_into(&mut self, version: u32, query: &str, arguments: &[i64], printed: &mut Vec<i64>) -> Result<()> {
        let mut reply = c::Reply::default();
        let (name, numbers) = (query.as_bytes(), arguments);
        check(unsafe { c::persist_query(&mut self.0, version, name.as_ptr(), name.len(), numbers.as_ptr(), numbers.len(), &mut reply) })?;
        self.take_printed(&reply, printed)
    }

    /// The version tree.
    pub fn versions(&mut self) -> Result<Versions> {
        match self.command("versions")? {
            Some(Reply::Versions(it)) => Ok(it),
            other => Err(Error::UnknownReply(format!("{other:?}"))),
        }
    }

    /// The records of a version that its roots lead to.
    pub fn dump(&mut self, version: u32) -> Result<Vec<Record>> {
        let mut length = 0;
        check(unsafe { c::persist_dump(&mut self.0, version, &mut length) })?;
        let text = text_in(self.made(length))?;
        let refused = text.starts_with("refused ");
        match Reply::of_text("dump", &if refused { text } else { text + "ok\n" })? {
            Some(Reply::Dump(it)) => Ok(it),
            other => Err(refusal(other)),
        }
    }

    /// The version, on the way from this one to version 0, that changed what a path such as `first.next.key` reads.
    pub fn changed(&mut self, version: u32, path: &str) -> Result<Option<u32>> {
        let mut length = 0;
        check(unsafe { c::persist_changed(&mut self.0, version, path.as_ptr(), path.len(), &mut length) })?;
        match Reply::of_text("changed", &text_in(self.made(length))?)? {
            Some(Reply::Changed(it)) => Ok(it),
            other => Err(refusal(other)),
        }
    }

    /// The image of all versions. Open runs are not in it.
    pub fn image(&mut self) -> Result<Vec<u8>> {
        let mut length = 0;
        check(unsafe { c::persist_image(&mut self.0, &mut length) })?;
        Ok(self.made(length))
    }

    fn made(&mut self, length: usize) -> Vec<u8> {
        let mut bytes = vec![];
        self.take_made(length, &mut bytes);
        bytes
    }

    fn take_made(&mut self, length: usize, bytes: &mut Vec<u8>) {
        bytes.clear();
        bytes.resize(length, 0);
        unsafe { c::persist_text(&mut self.0, 0, bytes.as_mut_ptr(), length) };
    }

    /// Takes the numbers that were printed; traps and refusals are errors.
    fn take_printed(&mut self, reply: &c::Reply, printed: &mut Vec<i64>) -> Result<()> {
        printed.clear();
        printed.resize(reply.printed, 0);
        unsafe { c::persist_printed(&mut self.0, 0, printed.as_mut_ptr(), reply.printed) };
        match reply.kind {
            2 => Err(Error::Trapped(Trap { kind: TRAPS[reply.detail as usize].into(), line: reply.number as usize, printed: printed.clone() })),
            11 => Err(Error::Refused(REFUSALS[reply.detail as usize].into())),
            _ => Ok(()),
        }
    }
}

impl std::fmt::Debug for Session {
    fn fmt(&self, f: &mut std::fmt::Formatter<'_>) -> std::fmt::Result {
        f.write_str(if self.0.at.is_null() { "Session(closed)" } else { "Session" })
    }
}

impl Drop for Session {
    fn drop(&mut self) {
        unsafe { c::persist_close(&mut self.0) };
    }
}

fn refusal(reply: Option<Reply>) -> Error {
    match reply {
        Some(Reply::Refused(kind)) => Error::Refused(kind),
        other => Error::UnknownReply(format!("{other:?}")),
    }
}

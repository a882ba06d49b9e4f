//! Safe calls of `libix_export.a`, the exporter of content graphs, without a dependency.
//!
//! A [`Builder`] takes blocks, a [`Store`] shares them among threads, and [`Store::export`] runs a [`Job`] on the
//! caller's thread.

mod raw;

use raw::Handle;
use std::fmt;

/// Why a call fails.
#[derive(Debug, Clone, PartialEq, Eq)]
pub enum Error {
    /// No memory was left.
    Memory,
    /// The input is refused, in the program's words.
    Refused(String),
    /// The bytes are not one CID.
    NoCid,
}

impl fmt::Display for Error {
    fn fmt(&self, f: &mut fmt::Formatter<'_>) -> fmt::Result {
        match self {
            Error::Memory => f.write_str("memory"),
            Error::Refused(line) => f.write_str(line),
            Error::NoCid => f.write_str("not one CID"),
        }
    }
}

impl std::error::Error for Error {}

/// How a job ended.
#[derive(Debug, Clone, Copy, PartialEq, Eq)]
pub enum End {
    Done,
    Limit,
    Memory,
}

/// Why a visit was skipped.
#[derive(Debug, Clone, Copy, PartialEq, Eq)]
pub enum Why {
    Codec,
    Hash,
    Missing,
    Damaged,
    Malformed,
}

/// A visit that was skipped: its number, from 0, why, and its CID in binary.
#[derive(Debug, Clone, PartialEq, Eq)]
pub struct Skip {
    pub visit: u32,
    pub why: Why,
    pub cid: Vec<u8>,
}

/// What was counted.
#[derive(Debug, Clone, Copy, PartialEq, Eq)]
pub struct Counts {
    pub visits: u32,
    pub kept: u32,
    pub sections: u32,
    pub bytes: u64,
    pub skips: u64,
}

/// A store to which blocks are added.
#[derive(Debug)]
pub struct Builder(Handle);

impl Builder {
    pub fn new() -> Result<Builder, Error> {
        Handle::filled(raw::store_new).map(Builder)
    }

    /// The blocks of a CARv1 file.
    pub fn from_car(car: &[u8]) -> Result<Builder, Error> {
        Handle::filled(|handle| raw::store_read_car(handle, car)).map(Builder)
    }

    /// Adds a copy of a block under its CID, and says whether there was none.
    pub fn add(&mut self, cid: &[u8], block: &[u8]) -> Result<bool, Error> {
        match raw::store_add(&mut self.0, cid, block) {
            raw::DONE => Ok(true),
            raw::KNOWN => Ok(false),
            raw::NO_CID => Err(Error::NoCid),
            _ => Err(Error::Memory),
        }
    }

    /// The store that threads share.
    pub fn freeze(mut self) -> Result<Store, Error> {
        match raw::store_freeze(&mut self.0) {
            raw::DONE => Ok(Store(std::sync::Mutex::new(self.0))),
            _ => Err(Error::Memory),
        }
    }
}

/// A store that doesn't change. Clones share it; each thread that exports takes one of its own.
pub struct Store(std::sync::Mutex<Handle>);

impl Store {
    /// One more owner of the same blocks.
    pub fn try_clone(&self) -> Result<Store, Error> {
        self.owner().map(|handle| Store(std::sync::Mutex::new(handle)))
    }

    /// Exports a job on this thread.
    pub fn export(&self, job: &mut Job) -> Result<Exported, Error> {
        // The lock is held for the count alone, so that exports over one store go on side by side.
        let mut owner = self.owner()?;
        Handle::filled(|handle| raw::export(&mut owner, &mut job.0, handle)).map(Exported)
    }

    fn owner(&self) -> Result<Handle, Error> {
        let mut handle = self.0.lock().unwrap_or_else(|it| it.into_inner());
        Handle::filled(|other| raw::store_share(&mut handle, other))
    }
}

/// A job.
#[derive(Debug)]
pub struct Job(Handle);

impl Job {
    /// The job of a line of a job file.
    pub fn from_line(line: &str) -> Result<Job, Error> {
        Handle::filled(|handle| raw::job_from_line(handle, line.as_bytes())).map(Job)
    }

    /// The job with these roots, CIDs in binary, a selector as DAG-CBOR and a limit of visits.
    pub fn new(roots: &[&[u8]], selector: &[u8], limit: u32) -> Result<Job, Error> {
        let roots = roots.concat();
        Handle::filled(|handle| raw::job_new(handle, &roots, selector, limit)).map(Job)
    }

    /// The same job, which goes into each CID once, and not at every arrival.
    pub fn once(mut self) -> Job {
        raw::job_once(&mut self.0);
        self
    }
}

/// The hexadecimal of the selector of a JSON text, the last field of a job's line.
pub fn selector_from_json(json: &str) -> Result<String, Error> {
    let mut text = Handle::filled(|handle| raw::selector_from_json(handle, json.as_bytes()))?;
    Ok(String::from_utf8_lossy(text.bytes(raw::TEXT)).into_owned())
}

/// What an export left.
#[derive(Debug)]
pub struct Exported(Handle);

impl Exported {
    pub fn end(&mut self) -> End {
        match self.0.counts().end {
            0 => End::Done,
            1 => End::Limit,
            _ => End::Memory,
        }
    }

    pub fn counts(&mut self) -> Counts {
        let raw::Counts { visits, kept, sections, bytes, skips, .. } = self.0.counts();
        Counts { visits, kept, sections, bytes, skips }
    }

    /// The CARv1 archive.
    pub fn archive(&mut self) -> &[u8] {
        self.0.bytes(raw::ARCHIVE)
    }

    /// The report of a run of the job alone.
    pub fn report(&mut self) -> &[u8] {
        self.0.bytes(raw::REPORT)
    }

    /// The visits that were skipped, in their order.
    pub fn skips(&mut self) -> Vec<Skip> {
        let whys = [Why::Codec, Why::Hash, Why::Missing, Why::Damaged, Why::Malformed];
        (0..)
            .map_while(|number| self.0.skip(number))
            .map(|(told, cid)| Skip { visit: told.visit, why: whys[told.why as usize], cid })
            .collect()
    }
}

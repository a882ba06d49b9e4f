//! The calls of `include/ix_export.h`, each with what it owes.

use crate::Error;

pub(crate) const DONE: u32 = 0;
pub(crate) const REFUSED: u32 = 2;
pub(crate) const KNOWN: u32 = 4;
pub(crate) const NO_CID: u32 = 5;

pub(crate) const ARCHIVE: u32 = 0;
pub(crate) const REPORT: u32 = 1;
pub(crate) const TEXT: u32 = 2;

/// A handle. It is neither copied nor shared, and freed once.
#[repr(C)]
#[derive(Debug)]
pub(crate) struct Handle {
    is_held: bool,
    held: *mut std::ffi::c_void,
}

#[repr(C)]
#[derive(Default)]
pub(crate) struct Counts {
    pub(crate) end: u32,
    pub(crate) visits: u32,
    pub(crate) kept: u32,
    pub(crate) sections: u32,
    pub(crate) bytes: u64,
    pub(crate) skips: u64,
}

#[repr(C)]
#[derive(Default)]
pub(crate) struct SkipRecord {
    pub(crate) visit: u32,
    pub(crate) why: u32,
}

extern "C" {
    fn ix_free(handle: &mut Handle);
    fn ix_store_new(store: &mut Handle) -> u32;
    fn ix_store_read_car(store: &mut Handle, car: *const u8, car_length: usize) -> u32;
    fn ix_store_add(store: &mut Handle, cid: *const u8, cid_length: usize, block: *const u8, block_length: usize) -> u32;
    fn ix_store_freeze(store: &mut Handle) -> u32;
    fn ix_store_share(store: &mut Handle, other: &mut Handle) -> u32;
    fn ix_job_from_line(job: &mut Handle, line: *const u8, line_length: usize) -> u32;
    fn ix_job_new(
        job: &mut Handle,
        roots: *const u8,
        roots_length: usize,
        selector: *const u8,
        selector_length: usize,
        limit: u32,
    ) -> u32;
    fn ix_job_once(job: &mut Handle) -> u32;
    fn ix_selector_from_json(text: &mut Handle, json: *const u8, json_length: usize) -> u32;
    fn ix_export(store: &mut Handle, job: &mut Handle, out: &mut Handle) -> u32;
    fn ix_result_counts(handle: &mut Handle, counts: &mut Counts) -> u32;
    fn ix_result_skip(handle: &mut Handle, number: usize, skip: &mut SkipRecord, cid: &mut *const u8, length: &mut usize) -> u32;
    fn ix_bytes(handle: &mut Handle, part: u32, start: &mut *const u8, length: &mut usize) -> u32;
}

// SAFETY: what a handle holds may go to another thread, as the library's source has it checked, and no call is given a
// handle that another thread has, since each takes a `&mut`.
unsafe impl Send for Handle {}

impl Drop for Handle {
    fn drop(&mut self) {
        // SAFETY: the handle was made by `filled` and is lent to this call alone.
        unsafe { ix_free(self) }
    }
}

// SAFETY, of the calls below: each handle was made by `filled`, two `&mut` are two handles, and a slice's pointer is never
// null and leads to as many bytes as its length says.
pub(crate) fn store_new(store: &mut Handle) -> u32 {
    unsafe { ix_store_new(store) }
}

pub(crate) fn store_read_car(store: &mut Handle, car: &[u8]) -> u32 {
    unsafe { ix_store_read_car(store, car.as_ptr(), car.len()) }
}

pub(crate) fn store_add(store: &mut Handle, cid: &[u8], block: &[u8]) -> u32 {
    unsafe { ix_store_add(store, cid.as_ptr(), cid.len(), block.as_ptr(), block.len()) }
}

pub(crate) fn store_freeze(store: &mut Handle) -> u32 {
    unsafe { ix_store_freeze(store) }
}

pub(crate) fn store_share(store: &mut Handle, other: &mut Handle) -> u32 {
    unsafe { ix_store_share(store, other) }
}

pub(crate) fn job_from_line(job: &mut Handle, line: &[u8]) -> u32 {
    unsafe { ix_job_from_line(job, line.as_ptr(), line.len()) }
}

pub(crate) fn job_new(job: &mut Handle, roots: &[u8], selector: &[u8], limit: u32) -> u32 {
    unsafe { ix_job_new(job, roots.as_ptr(), roots.len(), selector.as_ptr(), selector.len(), limit) }
}

pub(crate) fn job_once(job: &mut Handle) -> u32 {
    unsafe { ix_job_once(job) }
}

pub(crate) fn selector_from_json(text: &mut Handle, json: &[u8]) -> u32 {
    unsafe { ix_selector_from_json(text, json.as_ptr(), json.len()) }
}

pub(crate) fn export(store: &mut Handle, job: &mut Handle, out: &mut Handle) -> u32 {
    unsafe { ix_export(store, job, out) }
}

impl Handle {
    /// A handle that a call fills, or why it doesn't.
    pub(crate) fn filled(fill: impl FnOnce(&mut Handle) -> u32) -> Result<Handle, Error> {
        let mut handle = Handle { is_held: false, held: std::ptr::null_mut() };
        match fill(&mut handle) {
            DONE => Ok(handle),
            REFUSED => Err(Error::Refused(String::from_utf8_lossy(handle.bytes(TEXT)).into_owned())),
            _ => Err(Error::Memory),
        }
    }

    /// A part of what the handle holds, or nothing.
    pub(crate) fn bytes(&mut self, part: u32) -> &[u8] {
        let (mut start, mut length) = (std::ptr::null(), 0);
        // SAFETY: as above; the bytes stay where they are until the handle is filled or freed, and it is lent with them.
        unsafe {
            match ix_bytes(self, part, &mut start, &mut length) {
                DONE => std::slice::from_raw_parts(start, length),
                _ => &[],
            }
        }
    }

    pub(crate) fn counts(&mut self) -> Counts {
        let mut counts = Counts::default();
        // SAFETY: as above.
        unsafe { ix_result_counts(self, &mut counts) };
        counts
    }

    /// A skip by its number and its CID, if there is such a one.
    pub(crate) fn skip(&mut self, number: usize) -> Option<(SkipRecord, Vec<u8>)> {
        let (mut told, mut cid, mut length) = (SkipRecord::default(), std::ptr::null(), 0);
        // SAFETY: as above; the CID is copied at once.
        unsafe {
            match ix_result_skip(self, number, &mut told, &mut cid, &mut length) {
                DONE => Some((told, std::slice::from_raw_parts(cid, length).to_vec())),
                _ => None,
            }
        }
    }
}

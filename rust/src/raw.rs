//! The library's calls as they are exported; see include/fogsignaller.h.
//!
//! Nothing checks these declarations against the library, so they stand here once: the wrapper, the
//! comparison in tests/ and the measurements in bench/ all take them from this file.

// Each of these makes the calls that it needs.
#![allow(dead_code)]

/// The numbers that a survey returns.
#[repr(C)]
#[derive(Clone, Copy, Debug, PartialEq, Eq)]
pub struct Outcome {
    pub refusal: usize,
    pub place: usize,
    pub paths: usize,
    pub rounds: usize,
    pub messages: usize,
}

/// The record of one radio; all zeros for a radio on no path.
#[repr(C)]
#[derive(Clone, Copy, Debug, Default, PartialEq, Eq)]
pub struct Route {
    /// 0 on no path, 1 on a path, 2 source, 3 sink.
    pub role: u8,
    pub path: u8,
    pub before: u8,
    pub after: u8,
}

mod exported {
    extern "C" {
        pub fn fog_survey(
            n: usize,
            table: *const u8,
            table_len: usize,
            s: usize,
            t: usize,
            k: usize,
            log: *mut u8,
            log_len: usize,
            paths: *mut u8,
            paths_len: usize,
            cut: *mut u8,
            cut_len: usize,
        ) -> super::Outcome;

        pub fn fog_routes(
            n: usize,
            count: usize,
            paths: *const u8,
            paths_len: usize,
            routes: *mut super::Route,
            routes_len: usize,
        ) -> usize;
    }
}

/// What is asked: n, the table, S, T and k. The library judges all of it, so any numbers will do.
#[derive(Clone, Copy, Debug)]
pub struct Asked<'table> {
    pub radios: usize,
    pub table: &'table [u8],
    pub source: usize,
    pub destination: usize,
    pub wanted: usize,
}

/// Makes the call. Every byte of the three buffers is written.
pub fn fog_survey(asked: &Asked, log: &mut [u8], paths: &mut [u8], cut: &mut [u8]) -> Outcome {
    // SAFETY: slices are never null, not even empty ones, and hold as many bytes as their lengths
    // say; a `&mut` slice overlaps no other. The library asks for nothing else.
    unsafe {
        exported::fog_survey(
            asked.radios,
            asked.table.as_ptr(),
            asked.table.len(),
            asked.source,
            asked.destination,
            asked.wanted,
            log.as_mut_ptr(),
            log.len(),
            paths.as_mut_ptr(),
            paths.len(),
            cut.as_mut_ptr(),
            cut.len(),
        )
    }
}

/// Makes the call and gives the refusal number. Where that is 0, the first n records are written.
pub fn fog_routes(radios: usize, count: usize, paths: &[u8], routes: &mut [Route]) -> usize {
    // SAFETY: as for `fog_survey`; `Route` has the shape of the library's record.
    unsafe {
        exported::fog_routes(
            radios,
            count,
            paths.as_ptr(),
            paths.len(),
            routes.as_mut_ptr(),
            routes.len(),
        )
    }
}

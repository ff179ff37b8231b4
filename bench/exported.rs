//! The library's calls as C sees them, for the Rust versions that stand in its place.
//!
//! plain.rs and tuned.rs are each built as a static library with the name and the shape of the
//! proved one. So every program here links any of the three, and all three are called alike.

/// The numbers that a survey returns.
#[repr(C)]
pub struct Outcome {
    pub refusal: usize,
    pub place: usize,
    pub paths: usize,
    pub rounds: usize,
    pub messages: usize,
}

impl Outcome {
    /// A refused call: all counts are 0.
    pub fn refused(refusal: usize, place: usize) -> Outcome {
        Outcome {
            refusal,
            place,
            paths: 0,
            rounds: 0,
            messages: 0,
        }
    }
}

/// What is asked, before anything of it has been judged.
pub struct Asked<'table> {
    pub radios: usize,
    pub table: &'table [u8],
    pub source: usize,
    pub destination: usize,
    pub wanted: usize,
}

/// The three buffers that the caller lends.
pub struct Lent<'buffers> {
    pub log: &'buffers mut [u8],
    pub paths: &'buffers mut [u8],
    pub cut: &'buffers mut [u8],
}

/// The record of one radio; all zeros for a radio on no path.
#[repr(C)]
#[derive(Clone, Copy)]
pub struct Route {
    pub role: u8,
    pub path: u8,
    pub before: u8,
    pub after: u8,
}

impl Route {
    pub const OFF_PATHS: Route = Route::without_path(0);
    pub const SOURCE: Route = Route::without_path(2);
    pub const SINK: Route = Route::without_path(3);

    const fn without_path(role: u8) -> Route {
        Route {
            role,
            path: 0,
            before: 0,
            after: 0,
        }
    }

    pub fn on_path(path: u8, before: u8, after: u8) -> Route {
        Route {
            role: 1,
            path,
            before,
            after,
        }
    }
}

/// # Safety
/// Each pointer is not null and leads to as many bytes as the length after it says; the three
/// buffers and the table do not overlap.
#[no_mangle]
pub unsafe extern "C" fn fog_survey(
    n: usize,
    table: *const u8,
    table_len: usize,
    s: usize,
    t: usize,
    k: usize,
    log: *mut u8,
    log_len: usize,
    paths: *mut u8,
    paths_len: usize,
    cut: *mut u8,
    cut_len: usize,
) -> Outcome {
    let asked = Asked {
        radios: n,
        table: std::slice::from_raw_parts(table, table_len),
        source: s,
        destination: t,
        wanted: k,
    };
    let lent = Lent {
        log: std::slice::from_raw_parts_mut(log, log_len),
        paths: std::slice::from_raw_parts_mut(paths, paths_len),
        cut: std::slice::from_raw_parts_mut(cut, cut_len),
    };
    crate::survey(&asked, lent)
}

/// # Safety
/// Each pointer is not null and leads to as many bytes or records as the length after it says; the
/// path list and the records do not overlap.
#[no_mangle]
pub unsafe extern "C" fn fog_routes(
    n: usize,
    count: usize,
    paths: *const u8,
    paths_len: usize,
    routes: *mut Route,
    routes_len: usize,
) -> usize {
    crate::routes(
        n,
        count,
        std::slice::from_raw_parts(paths, paths_len),
        std::slice::from_raw_parts_mut(routes, routes_len),
    )
}

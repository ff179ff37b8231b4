//! What a call of fog_routes leaves, by the second program and by the library.

use crate::both_sides::Difference;
use crate::chance::Chance;
use crate::guarded::Guarded;
use crate::lines::{write_hexadecimal, write_routes_asked, write_routes_left};
use crate::raw::{fog_routes, Route};
use crate::routes::{answer_routes, Record, RouteCall, RoutesLeft};

const GUARD_RECORD: Record = [0xC3; 4];

/// One call with what stands in memory right after its path list, where no call may read.
#[derive(Clone)]
pub struct RouteTrial {
    pub call: RouteCall,
    pub beyond: Vec<u8>,
}

impl RouteTrial {
    pub fn compare(&self) -> Result<RoutesLeft, Difference> {
        let got = self.library_leaves().map_err(Difference::Touched)?;
        if answer_routes(&self.call) == got {
            return Ok(got);
        }
        Err(Difference::Left)
    }

    /// An error tells of bytes that the library may not touch.
    pub fn library_leaves(&self) -> Result<RoutesLeft, String> {
        let call = &self.call;
        let mut chance = Chance {
            state: call.list.len() as u64,
        };
        let held: Vec<Route> = call.held.iter().map(route_of).collect();
        let mut routes = Guarded::new(&held, route_of(&GUARD_RECORD), &mut chance);
        let memory = [call.list.as_slice(), &self.beyond].concat();
        let list = &memory[..call.list.len()];
        let refusal = fog_routes(call.radios, call.count, list, routes.lend());
        if list != call.list {
            return Err("the library changed the path list".to_string());
        }
        Ok(RoutesLeft {
            refusal,
            records: routes.take("records")?.iter().map(record_of).collect(),
        })
    }

    pub fn differs(&self) -> bool {
        self.compare().is_err()
    }

    /// In what the call differs, in words.
    pub fn what_differs(&self) -> String {
        match self.compare() {
            Ok(_) => "differed once and not again".to_string(),
            Err(difference) => difference.describe(),
        }
    }

    /// The call as a line of calls.txt, and what each side makes of it. What such a line cannot
    /// say comes before it.
    pub fn describe(&self) -> String {
        let mut told = String::new();
        if self.call.held.windows(2).any(|pair| pair[0] != pair[1]) {
            let held = write_hexadecimal(self.call.held.as_flattened());
            told += &format!("  records held before, not all as was: {held}\n");
        }
        if !self.beyond.is_empty() {
            let beyond = write_hexadecimal(&self.beyond);
            told += &format!("  in memory after the path list: {beyond}\n");
        }
        let got = match self.library_leaves() {
            Ok(left) => format!("=> {}", write_routes_left(&left)),
            Err(fault) => fault,
        };
        format!(
            "{told}  call: {}\n  expected: => {}\n  got:      {got}",
            write_routes_asked(&self.call),
            write_routes_left(&answer_routes(&self.call))
        )
    }
}

fn route_of(&[role, path, before, after]: &Record) -> Route {
    Route {
        role,
        path,
        before,
        after,
    }
}

fn record_of(route: &Route) -> Record {
    [route.role, route.path, route.before, route.after]
}

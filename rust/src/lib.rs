//! Surveys a map of radios: up to k paths from S to T that share no radio between the ends, every
//! message that the search sent, a cut where fewer than k paths exist, and the record of its path
//! that each radio is loaded with.
//!
//! The work is done by a static library that is proved to leave exactly what the project's scope
//! paper says. This package is a thin wrapper without dependencies; the proof does not cover it.
//!
//! ```
//! use fogsignaller::{survey, CutItem, Question};
//!
//! // Three radios in a row: 0-1, 1-2. Two paths are wanted, and only one exists.
//! let table = [
//!     0, 1, 0, //
//!     1, 0, 1, //
//!     0, 1, 0, //
//! ];
//! let question = Question {
//!     radios: 3,
//!     table: &table,
//!     source: 0,
//!     destination: 2,
//!     wanted: 2,
//! };
//! let found = survey(&question)?;
//! assert!(!found.is_full());
//! assert_eq!(found.paths().collect::<Vec<_>>(), [[0, 1, 2]]);
//! assert_eq!(found.cut().collect::<Vec<_>>(), [CutItem::Radio(1)]);
//! assert_eq!((found.rounds(), found.messages().len()), (2, 9));
//! # Ok::<(), fogsignaller::Refusal>(())
//! ```
//!
//! A [`Map`] makes the table. A handheld is linked as other radios are, but does not pass on what it
//! hears, so that no path leads over it; as S or T it is an ordinary radio:
//!
//! ```
//! use fogsignaller::{survey, CutItem, Map};
//!
//! // 0-1-3 and 0-2-3. Radio 1 is a handheld.
//! let mut map = Map::new(4)?;
//! map.link(0, 1)?.link(1, 3)?.link(0, 2)?.link(2, 3)?;
//! map.handheld(1)?;
//! let found = survey(&map.question(0, 3, 2))?;
//! assert_eq!(found.paths().collect::<Vec<_>>(), [[0, 2, 3]]);
//! assert_eq!(found.cut().collect::<Vec<_>>(), [CutItem::Radio(2)]);
//!
//! // From the handheld itself two paths lead to radio 2.
//! let found = survey(&map.question(1, 2, 2))?;
//! assert_eq!(found.paths().collect::<Vec<_>>(), [[1, 0, 2], [1, 3, 2]]);
//! # Ok::<(), Box<dyn std::error::Error>>(())
//! ```
//!
//! Each radio's record, here those of map Q of the scope paper:
//!
//! ```
//! use fogsignaller::{survey, Map, Role, Route, ROUTES_ALWAYS_ENOUGH};
//!
//! let mut map = Map::new(8)?;
//! for (one, other) in [(0, 1), (0, 4), (1, 2), (1, 6), (2, 3), (2, 5), (3, 4), (3, 7), (6, 7)] {
//!     map.link(one, other)?;
//! }
//! let found = survey(&map.question(0, 7, 3))?;
//! assert_eq!(found.paths().collect::<Vec<_>>(), [[0, 1, 6, 7], [0, 4, 3, 7]]);
//!
//! let mut records = [Route::default(); ROUTES_ALWAYS_ENOUGH];
//! let routes = found.routes_into(&mut records)?;
//! let without_path = |role| Route {
//!     role,
//!     path: None,
//!     before: None,
//!     after: None,
//! };
//! let on_path = |number, before, after| Route {
//!     role: Role::OnPath,
//!     path: Some(number),
//!     before: Some(before),
//!     after: Some(after),
//! };
//! let expected = [
//!     without_path(Role::Source),
//!     on_path(1, 0, 6),
//!     without_path(Role::OffPaths),
//!     on_path(2, 4, 7),
//!     on_path(2, 0, 3),
//!     without_path(Role::OffPaths),
//!     on_path(1, 1, 7),
//!     without_path(Role::Sink),
//! ];
//! assert_eq!(routes, expected);
//! # Ok::<(), Box<dyn std::error::Error>>(())
//! ```
//!
//! A question that is not in order is refused, with the reason in words. Where a cell of the table
//! is bad, the reason says in which way, and which two radios it is about:
//!
//! ```
//! use fogsignaller::{survey, Cell, Question, Refusal};
//!
//! // Radio 0 says that it is linked to radio 1, and radio 1 that it is not linked to radio 0.
//! let question = Question {
//!     radios: 2,
//!     table: &[0, 1, 0, 0],
//!     source: 0,
//!     destination: 1,
//!     wanted: 1,
//! };
//! let refusal = survey(&question).unwrap_err();
//! let cell = Cell {
//!     place: 1,
//!     row: 0,
//!     column: 1,
//! };
//! assert_eq!(refusal, Refusal::CellMirror(cell));
//! assert_eq!(
//!     refusal.to_string(),
//!     "refused 13: radio 0 and radio 1 do not say the same of their link: \
//!      the table's cell at place 1 (row 0, column 1) differs from its mirror cell"
//! );
//! ```

#![warn(missing_docs)]

mod raw;

use std::error::Error;
use std::fmt;

/// A log of this length is enough for every accepted call: 4·17·574 bytes, since k is at most 8
/// and A at most 574.
pub const LOG_ALWAYS_ENOUGH: usize = 39_032;
/// A path list of this length is enough for every accepted call: 62 radios inside paths, and a
/// length and two ends for each of 8 paths.
pub const PATHS_ALWAYS_ENOUGH: usize = 86;
/// A cut list of this length is enough for every accepted call: one item a path.
pub const CUT_ALWAYS_ENOUGH: usize = 8;
/// A record list of this length is enough for every accepted call: one record a radio.
pub const ROUTES_ALWAYS_ENOUGH: usize = MOST_RADIOS;

const MOST_RADIOS: usize = 64;
const BYTES_A_MESSAGE: usize = 4;
const DIRECT_LINK: u8 = 255;

/// What is asked. The library judges all of it, so any numbers and any table may be given.
#[derive(Clone, Copy, Debug)]
pub struct Question<'table> {
    /// n, 2 to 64. Radios are numbered from 0.
    pub radios: usize,
    /// n·n bytes, row by row: cell i·n+j is 1 if radios i and j are linked, else 0. Cell i·n+i is 1
    /// if radio i is a handheld, else 0. A [`Map`] makes such a table.
    pub table: &'table [u8],
    /// S, where the paths begin.
    pub source: usize,
    /// T, where the paths end.
    pub destination: usize,
    /// k, how many paths are wanted, 1 to 8.
    pub wanted: usize,
}

/// Radios, their links and which of them are handhelds: a table for [`Question`]s, made link by link.
/// It allocates nothing.
#[derive(Clone, Debug, PartialEq, Eq)]
pub struct Map {
    radios: usize,
    cells: [u8; MOST_RADIOS * MOST_RADIOS],
}

impl Map {
    /// So many radios, numbered from 0, without a link and none of them a handheld. A map has room
    /// for 64; more are refused here, and fewer than 2 by the survey.
    pub fn new(radios: usize) -> Result<Map, Refusal> {
        if radios > MOST_RADIOS {
            return Err(Refusal::NumberOfRadios);
        }
        Ok(Map {
            radios,
            cells: [0; MOST_RADIOS * MOST_RADIOS],
        })
    }

    /// Links two radios, which may be linked already. The link has no direction.
    pub fn link(&mut self, one: usize, other: usize) -> Result<&mut Map, MapFault> {
        if one == other {
            return Err(MapFault::LinkToItself(one));
        }
        let (there, back) = (self.place(one, other)?, self.place(other, one)?);
        self.cells[there] = 1;
        self.cells[back] = 1;
        Ok(self)
    }

    /// Makes a radio a handheld, which it may be already: it keeps its links, and does not pass on
    /// what it hears.
    pub fn handheld(&mut self, radio: usize) -> Result<&mut Map, MapFault> {
        let own = self.place(radio, radio)?;
        self.cells[own] = 1;
        Ok(self)
    }

    /// The table as the library reads it.
    pub fn table(&self) -> &[u8] {
        &self.cells[..self.radios * self.radios]
    }

    /// Asks for so many paths from a source to a destination.
    pub fn question(&self, source: usize, destination: usize, wanted: usize) -> Question<'_> {
        Question {
            radios: self.radios,
            table: self.table(),
            source,
            destination,
            wanted,
        }
    }

    fn place(&self, row: usize, column: usize) -> Result<usize, MapFault> {
        let is_missing = |radio: &usize| *radio >= self.radios;
        match [row, column].into_iter().find(is_missing) {
            Some(radio) => Err(MapFault::NoSuchRadio(radio)),
            None => Ok(row * self.radios + column),
        }
    }
}

/// Why a link or a handheld cannot be put on a [`Map`].
#[derive(Clone, Copy, Debug, PartialEq, Eq, Hash)]
pub enum MapFault {
    /// The radio's number is not below n.
    NoSuchRadio(usize),
    /// No radio is linked to itself.
    LinkToItself(usize),
}

impl fmt::Display for MapFault {
    fn fmt(&self, formatter: &mut fmt::Formatter<'_>) -> fmt::Result {
        match self {
            MapFault::NoSuchRadio(radio) => write!(formatter, "the map has no radio {radio}"),
            MapFault::LinkToItself(radio) => {
                write!(formatter, "radio {radio} cannot be linked to itself")
            }
        }
    }
}

impl Error for MapFault {}

/// The three buffers that a caller lends to [`survey_into`].
///
/// The log needs 4·(2k+1)·A bytes, where A = 2m − deg S − deg T + (1 if S and T are linked,
/// else 0) + n − 2 − h, m is the number of links and h that of the handhelds other than S and T. The
/// path list needs n−2+3k bytes, the cut list k.
/// [`LOG_ALWAYS_ENOUGH`], [`PATHS_ALWAYS_ENOUGH`] and [`CUT_ALWAYS_ENOUGH`] are enough for all.
#[derive(Debug)]
pub struct Buffers<'buffers> {
    /// Gets four bytes a message.
    pub log: &'buffers mut [u8],
    /// Gets each path's number of radios and then its radios.
    pub paths: &'buffers mut [u8],
    /// Gets one byte a cut item.
    pub cut: &'buffers mut [u8],
}

/// A cell of the table: what it says of two radios, or on the diagonal of one.
#[derive(Clone, Copy, Debug, PartialEq, Eq, Hash)]
pub struct Cell {
    /// Where it stands in the table, row by row, counted from 0: row·n + column.
    pub place: usize,
    /// The radio whose row it stands in.
    pub row: usize,
    /// The radio whose column it stands in. The mirror cell has the two the other way round.
    pub column: usize,
}

impl Cell {
    /// A map has a radio, or it would have no cell.
    fn at(place: usize, radios: usize) -> Cell {
        Cell {
            place,
            row: place / radios,
            column: place % radios,
        }
    }
}

impl fmt::Display for Cell {
    fn fmt(&self, formatter: &mut fmt::Formatter<'_>) -> fmt::Result {
        let Cell { place, row, column } = self;
        write!(
            formatter,
            "cell at place {place} (row {row}, column {column})"
        )
    }
}

/// Why a call was refused. They are tried in this order, and the first that holds is given; the
/// last two and the first are those of a path list.
///
/// The two of a cell speak of the first bad cell of the table in row order, and are tried there
/// before the next cell is looked at. In 1.x they were one, `Refusal::Cell { place }`: where a
/// program knew that, it has to know these two, or ask [`Refusal::cell`]. `Refusal::CellDiagonal` of
/// 2.x is gone: a 1 on the diagonal is a handheld.
#[derive(Clone, Copy, Debug, PartialEq, Eq, Hash)]
pub enum Refusal {
    /// n is below 2 or above 64.
    NumberOfRadios,
    /// The table's length is not n·n.
    TableLength,
    /// The cell is not 0 or 1.
    CellValue(Cell),
    /// The cell is 0 or 1 and differs from its mirror cell, as where one radio says that the two
    /// are linked and the other that they are not.
    CellMirror(Cell),
    /// There are more than 256 links.
    TooManyLinks,
    /// S or T is not below n, or they are the same radio.
    Ends,
    /// k is 0 or above 8.
    Wanted,
    /// The log is shorter than 4·(2k+1)·A bytes.
    LogTooShort,
    /// The path list is shorter than n−2+3k bytes, or the cut list is shorter than k bytes.
    ListTooShort,
    /// The record list is shorter than n records.
    RoutesTooShort,
    /// There are more than 8 paths, or the path list does not hold that many disjoint lists of two
    /// or more different radios below n with the same first and the same last.
    PathList,
}

impl Refusal {
    /// The number that this refusal has in every language: 1 to 8, 13, 20 or 21.
    pub fn number(self) -> usize {
        match self {
            Refusal::NumberOfRadios => 1,
            Refusal::TableLength => 2,
            Refusal::CellValue(_) => 3,
            Refusal::CellMirror(_) => 13,
            Refusal::TooManyLinks => 4,
            Refusal::Ends => 5,
            Refusal::Wanted => 6,
            Refusal::LogTooShort => 7,
            Refusal::ListTooShort => 8,
            Refusal::RoutesTooShort => 20,
            Refusal::PathList => 21,
        }
    }

    /// The bad cell, where there is one.
    pub fn cell(self) -> Option<Cell> {
        match self {
            Refusal::CellValue(cell) | Refusal::CellMirror(cell) => Some(cell),
            _ => None,
        }
    }

    /// Nothing for an accepted call. The number of radios may be any where no cell is bad.
    fn of(number: usize, place: usize, radios: usize) -> Option<Refusal> {
        match number {
            0 => None,
            1 => Some(Refusal::NumberOfRadios),
            2 => Some(Refusal::TableLength),
            3 => Some(Refusal::CellValue(Cell::at(place, radios))),
            13 => Some(Refusal::CellMirror(Cell::at(place, radios))),
            4 => Some(Refusal::TooManyLinks),
            5 => Some(Refusal::Ends),
            6 => Some(Refusal::Wanted),
            7 => Some(Refusal::LogTooShort),
            8 => Some(Refusal::ListTooShort),
            20 => Some(Refusal::RoutesTooShort),
            21 => Some(Refusal::PathList),
            number => panic!(
                "the library gave refusal number {number}, which this package does not know: \
                 libfogsignaller.a and the package are not of the same version"
            ),
        }
    }
}

impl fmt::Display for Refusal {
    fn fmt(&self, formatter: &mut fmt::Formatter<'_>) -> fmt::Result {
        write!(formatter, "refused {}: ", self.number())?;
        match self {
            Refusal::NumberOfRadios => write!(formatter, "the number of radios is not 2 to 64"),
            Refusal::TableLength => write!(
                formatter,
                "the table's length is not the number of radios times itself"
            ),
            Refusal::CellValue(cell) => write!(formatter, "the table's {cell} is not 0 or 1"),
            Refusal::CellMirror(cell) => write!(
                formatter,
                "radio {} and radio {} do not say the same of their link: \
                 the table's {cell} differs from its mirror cell",
                cell.row, cell.column
            ),
            Refusal::TooManyLinks => write!(formatter, "the map has more than 256 links"),
            Refusal::Ends => write!(
                formatter,
                "the source and the destination are not two different radios of the map"
            ),
            Refusal::Wanted => write!(formatter, "the wanted number of paths is not 1 to 8"),
            Refusal::LogTooShort => write!(formatter, "the log buffer is too short for this map"),
            Refusal::ListTooShort => {
                write!(formatter, "the path list or the cut list is too short")
            }
            Refusal::RoutesTooShort => {
                write!(
                    formatter,
                    "the record list is shorter than one record a radio"
                )
            }
            Refusal::PathList => write!(
                formatter,
                "there are more than 8 paths, or the path list does not hold that many disjoint \
                 paths of radios of the map with the same first and the same last radio"
            ),
        }
    }
}

impl Error for Refusal {}

/// One spot that holds the site back.
#[derive(Clone, Copy, Debug, PartialEq, Eq, Hash)]
pub enum CutItem {
    /// This radio.
    Radio(u8),
    /// The direct link between S and T.
    DirectLink,
}

impl fmt::Display for CutItem {
    fn fmt(&self, formatter: &mut fmt::Formatter<'_>) -> fmt::Result {
        match self {
            CutItem::Radio(radio) => write!(formatter, "{radio}"),
            CutItem::DirectLink => write!(formatter, "link"),
        }
    }
}

/// The four kinds of message.
#[derive(Clone, Copy, Debug, PartialEq, Eq, Hash)]
pub enum Kind {
    /// The path discovery token.
    Pdt,
    /// The token comes back: no path that way.
    PdtB,
    /// A path was made; the mark of the step it goes over is reversed.
    Pmt,
    /// Walks each path once, after the last round.
    Done,
}

/// One message of the log. Radio v's in half has number 2v, its out half 2v+1.
#[derive(Clone, Copy, Debug, PartialEq, Eq, Hash)]
pub struct Message {
    /// What it says.
    pub kind: Kind,
    /// Its round, from 1; for DONE the number of rounds started.
    pub round: u8,
    /// The half that sent it.
    pub from: u8,
    /// The half that received it.
    pub to: u8,
}

/// What a radio is to the paths.
#[derive(Clone, Copy, Debug, Default, PartialEq, Eq, Hash)]
pub enum Role {
    /// It is on no path.
    #[default]
    OffPaths,
    /// It is on a path, between its ends.
    OnPath,
    /// It is S, where the paths begin.
    Source,
    /// It is T, where the paths end.
    Sink,
}

/// The record that one radio is loaded with. Only with [`Role::OnPath`] it has the other three.
#[derive(Clone, Copy, Debug, Default, PartialEq, Eq, Hash)]
pub struct Route {
    /// What the radio is to the paths.
    pub role: Role,
    /// The number of its path, from 1.
    pub path: Option<u8>,
    /// The radio before it, towards S.
    pub before: Option<u8>,
    /// The radio after it, towards T.
    pub after: Option<u8>,
}

impl Route {
    fn of(record: raw::Route) -> Route {
        let role = match record.role {
            0 => Role::OffPaths,
            1 => Role::OnPath,
            2 => Role::Source,
            _ => Role::Sink,
        };
        let on_path = |field| (role == Role::OnPath).then_some(field);
        Route {
            role,
            path: on_path(record.path),
            before: on_path(record.before),
            after: on_path(record.after),
        }
    }
}

/// What an accepted survey found. `Survey` owns its bytes; `Survey<&[u8]>` has lent ones.
#[derive(Clone, Debug, PartialEq, Eq)]
pub struct Survey<Bytes = Vec<u8>> {
    radios: usize,
    wanted: usize,
    number_of_paths: usize,
    rounds: usize,
    log: Bytes,
    paths: Bytes,
    cut: Bytes,
}

impl<Bytes: AsRef<[u8]>> Survey<Bytes> {
    /// Whether as many paths were found as were wanted.
    pub fn is_full(&self) -> bool {
        self.number_of_paths == self.wanted
    }

    /// How many rounds were started.
    pub fn rounds(&self) -> usize {
        self.rounds
    }

    /// The paths in the order in which DONE walked them, each the radios from S to T.
    pub fn paths(&self) -> Paths<'_> {
        Paths {
            left: self.number_of_paths,
            bytes: self.paths.as_ref(),
        }
    }

    /// The record of each radio, radio v's at place v; see [`routes_into`]. A survey's own paths
    /// are in order, so only [`Refusal::RoutesTooShort`] can come.
    pub fn routes_into<'records>(
        &self,
        records: &'records mut [Route],
    ) -> Result<&'records [Route], Refusal> {
        routes_into(&self.path_list(), records)
    }

    /// The paths as bytes.
    pub fn path_list(&self) -> PathList<'_> {
        PathList {
            radios: self.radios,
            count: self.number_of_paths,
            bytes: self.paths.as_ref(),
        }
    }

    /// The cut, one item a path in path order; empty where the survey is full. Every path from S
    /// to T in the map holds one of these radios or is the direct link that the cut names.
    pub fn cut(&self) -> impl ExactSizeIterator<Item = CutItem> + '_ {
        let items = if self.is_full() {
            0
        } else {
            self.number_of_paths
        };
        self.cut.as_ref()[..items].iter().map(|&item| match item {
            DIRECT_LINK => CutItem::DirectLink,
            radio => CutItem::Radio(radio),
        })
    }

    /// Every message in the order sent.
    pub fn messages(&self) -> impl ExactSizeIterator<Item = Message> + '_ {
        let messages = self.log.as_ref().chunks_exact(BYTES_A_MESSAGE);
        messages.map(|bytes| Message {
            kind: match bytes[0] {
                1 => Kind::Pdt,
                2 => Kind::PdtB,
                3 => Kind::Pmt,
                _ => Kind::Done,
            },
            round: bytes[1],
            from: bytes[2],
            to: bytes[3],
        })
    }

    /// The log's used bytes, four a message.
    pub fn log_bytes(&self) -> &[u8] {
        self.log.as_ref()
    }
}

/// The paths of a survey; see [`Survey::paths`].
#[derive(Clone, Debug)]
pub struct Paths<'survey> {
    left: usize,
    bytes: &'survey [u8],
}

impl<'survey> Iterator for Paths<'survey> {
    type Item = &'survey [u8];

    fn next(&mut self) -> Option<&'survey [u8]> {
        if self.left == 0 {
            return None;
        }
        let (&length, rest) = self.bytes.split_first()?;
        let (path, rest) = rest.split_at(usize::from(length));
        self.left -= 1;
        self.bytes = rest;
        Some(path)
    }

    fn size_hint(&self) -> (usize, Option<usize>) {
        (self.left, Some(self.left))
    }
}

impl ExactSizeIterator for Paths<'_> {}

/// Surveys a map with buffers of its own, so [`Refusal::LogTooShort`] and
/// [`Refusal::ListTooShort`] do not come from it.
pub fn survey(question: &Question) -> Result<Survey, Refusal> {
    let mut log = vec![0; LOG_ALWAYS_ENOUGH];
    let mut paths = vec![0; PATHS_ALWAYS_ENOUGH];
    let mut cut = vec![0; CUT_ALWAYS_ENOUGH];
    let found = survey_into(
        question,
        Buffers {
            log: &mut log,
            paths: &mut paths,
            cut: &mut cut,
        },
    )?;
    Ok(Survey {
        radios: found.radios,
        wanted: found.wanted,
        number_of_paths: found.number_of_paths,
        rounds: found.rounds,
        log: found.log.to_vec(),
        paths: found.paths.to_vec(),
        cut: found.cut.to_vec(),
    })
}

/// Surveys a map with lent buffers and allocates nothing. Every byte of them is written: those
/// past the used ones become 0, and after a refusal all are 0.
///
/// ```
/// use fogsignaller::{survey_into, Buffers, CutItem, Question};
///
/// // Two linked radios and two paths wanted: the direct link serves one path at most. A is 1 here,
/// // so the log needs 4·5·1 bytes, the path list 0+6 and the cut list 2.
/// let (mut log, mut paths, mut cut) = ([7; 20], [7; 6], [7; 2]);
/// let question = Question {
///     radios: 2,
///     table: &[0, 1, 1, 0],
///     source: 0,
///     destination: 1,
///     wanted: 2,
/// };
/// let found = survey_into(
///     &question,
///     Buffers {
///         log: &mut log,
///         paths: &mut paths,
///         cut: &mut cut,
///     },
/// )?;
/// assert_eq!(found.paths().next(), Some(&[0, 1][..]));
/// assert_eq!(found.cut().next(), Some(CutItem::DirectLink));
/// assert_eq!(paths, [2, 0, 1, 0, 0, 0]);
/// # Ok::<(), fogsignaller::Refusal>(())
/// ```
pub fn survey_into<'buffers>(
    question: &Question,
    lent: Buffers<'buffers>,
) -> Result<Survey<&'buffers [u8]>, Refusal> {
    let asked = raw::Asked {
        radios: question.radios,
        table: question.table,
        source: question.source,
        destination: question.destination,
        wanted: question.wanted,
    };
    let outcome = raw::fog_survey(&asked, lent.log, lent.paths, lent.cut);
    if let Some(refusal) = Refusal::of(outcome.refusal, outcome.place, question.radios) {
        return Err(refusal);
    }
    let (log, paths, cut): (&[u8], &[u8], &[u8]) = (lent.log, lent.paths, lent.cut);
    let found = Survey {
        radios: question.radios,
        wanted: question.wanted,
        number_of_paths: outcome.paths,
        rounds: outcome.rounds,
        log: &log[..BYTES_A_MESSAGE * outcome.messages],
        paths,
        cut,
    };
    let used = found.paths().map(|path| 1 + path.len()).sum();
    let items = found.cut().len();
    Ok(Survey {
        paths: &paths[..used],
        cut: &cut[..items],
        ..found
    })
}

/// A path list, a survey's own or one from elsewhere. The library judges all of it, so any numbers
/// and any bytes may be given.
#[derive(Clone, Copy, Debug, PartialEq, Eq)]
pub struct PathList<'bytes> {
    /// n, 2 to 64. Radios are numbered from 0.
    pub radios: usize,
    /// How many paths there are, at most 8.
    pub count: usize,
    /// For each path its number of radios and then the radios from S to T. What stands behind the
    /// last path is not read.
    pub bytes: &'bytes [u8],
}

/// Turns a path list into records, radio v's at place v, and gives those of the n radios. The lent
/// list needs n records, for which [`ROUTES_ALWAYS_ENOUGH`] are enough; those past n stay as they
/// were, and after a refusal all do. It allocates nothing.
///
/// ```
/// use fogsignaller::{routes_into, PathList, Refusal, Role, Route};
///
/// // Four radios and two paths, 0-3 and 0-2-3.
/// let mut list = PathList {
///     radios: 4,
///     count: 2,
///     bytes: &[2, 0, 3, 3, 0, 2, 3],
/// };
/// let mut records = [Route::default(); 4];
/// let routes = routes_into(&list, &mut records)?;
/// let roles = [Role::Source, Role::OffPaths, Role::OnPath, Role::Sink];
/// assert!(routes.iter().map(|route| route.role).eq(roles));
/// assert_eq!(routes[2].path, Some(2));
///
/// // The direct link a second time.
/// list.bytes = &[2, 0, 3, 2, 0, 3];
/// assert_eq!(routes_into(&list, &mut records), Err(Refusal::PathList));
/// # Ok::<(), fogsignaller::Refusal>(())
/// ```
pub fn routes_into<'records>(
    list: &PathList,
    records: &'records mut [Route],
) -> Result<&'records [Route], Refusal> {
    // The library's records have another shape; of a longer list it needs no more than these.
    let mut filled = [raw::Route::default(); ROUTES_ALWAYS_ENOUGH];
    let lent = records.len().min(ROUTES_ALWAYS_ENOUGH);
    let refusal = raw::fog_routes(list.radios, list.count, list.bytes, &mut filled[..lent]);
    if let Some(refusal) = Refusal::of(refusal, 0, list.radios) {
        return Err(refusal);
    }
    let routes = &mut records[..list.radios];
    for (route, record) in routes.iter_mut().zip(filled) {
        *route = Route::of(record);
    }
    Ok(routes)
}

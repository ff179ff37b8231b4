//! The wrapper through the static library: maps, each refusal, lent and own buffers, the iterators.

use fogsignaller::{
    survey, survey_into, Buffers, Cell, CutItem, Kind, Map, MapFault, Message, Question, Refusal,
    CUT_ALWAYS_ENOUGH, LOG_ALWAYS_ENOUGH, PATHS_ALWAYS_ENOUGH,
};

/// Two linked radios.
const PAIR: [u8; 4] = [0, 1, 1, 0];

fn ask(
    radios: usize,
    table: &[u8],
    source: usize,
    destination: usize,
    wanted: usize,
) -> Question<'_> {
    Question {
        radios,
        table,
        source,
        destination,
        wanted,
    }
}

fn cell(place: usize, row: usize, column: usize) -> Cell {
    Cell { place, row, column }
}

#[test]
fn pair_gives_its_link_three_messages_and_no_cut() {
    let found = survey(&ask(2, &PAIR, 0, 1, 1)).expect("two linked radios are a map");
    assert!(found.is_full());
    assert_eq!(found.rounds(), 1);
    assert_eq!(found.paths().collect::<Vec<_>>(), [[0, 1]]);
    assert_eq!(found.cut().len(), 0);
    let message = |kind, from, to| Message {
        kind,
        round: 1,
        from,
        to,
    };
    let expected = [
        message(Kind::Pdt, 1, 2),
        message(Kind::Pmt, 2, 1),
        message(Kind::Done, 1, 2),
    ];
    assert_eq!(found.messages().collect::<Vec<_>>(), expected);
    assert_eq!(found.log_bytes(), [1, 1, 1, 2, 3, 1, 2, 1, 4, 1, 1, 2]);
}

#[test]
fn no_link_gives_no_path_and_no_cut_item() {
    let found = survey(&ask(2, &[0; 4], 1, 0, 8)).expect("a map may be without links");
    assert!(!found.is_full());
    assert_eq!((found.paths().len(), found.cut().len()), (0, 0));
    assert_eq!((found.rounds(), found.messages().len()), (1, 0));
}

/// The map with these links and handhelds.
fn map_of(radios: usize, links: &[(usize, usize)], handhelds: &[usize]) -> Map {
    let mut map = Map::new(radios).expect("a map has room for so many");
    for &(one, other) in links {
        map.link(one, other).expect("two radios of the map");
    }
    for &radio in handhelds {
        map.handheld(radio).expect("a radio of the map");
    }
    map
}

#[test]
fn map_makes_the_table() {
    let map = map_of(3, &[(0, 1), (2, 1), (1, 0)], &[2, 2]);
    assert_eq!(map.table(), [0, 1, 0, 1, 0, 1, 0, 1, 1]);
    let question = map.question(2, 0, 4);
    assert_eq!((question.radios, question.table), (3, map.table()));
    let (source, destination) = (question.source, question.destination);
    assert_eq!((source, destination, question.wanted), (2, 0, 4));
    assert!(Map::new(0).expect("no radios").table().is_empty());
    assert_eq!(Map::new(64).expect("64 radios").table().len(), 64 * 64);
}

#[test]
fn map_refuses_what_it_cannot_hold_and_stays_as_it_was() {
    let mut map = map_of(3, &[(0, 1)], &[0]);
    let before = map.clone();
    assert_eq!(map.link(0, 3), Err(MapFault::NoSuchRadio(3)));
    assert_eq!(map.link(3, 0), Err(MapFault::NoSuchRadio(3)));
    assert_eq!(map.link(1, 1), Err(MapFault::LinkToItself(1)));
    assert_eq!(map.handheld(3), Err(MapFault::NoSuchRadio(3)));
    assert_eq!(
        map.handheld(usize::MAX),
        Err(MapFault::NoSuchRadio(usize::MAX))
    );
    assert_eq!(map, before);
    assert_eq!(Map::new(65), Err(Refusal::NumberOfRadios));
    assert_eq!(Map::new(usize::MAX), Err(Refusal::NumberOfRadios));
    let lone = Map::new(1).expect("the survey refuses it");
    assert_eq!(
        survey(&lone.question(0, 0, 1)),
        Err(Refusal::NumberOfRadios)
    );
}

#[test]
fn no_path_leads_over_a_handheld() {
    let chain = [(0, 1), (1, 2)];
    let map = map_of(3, &chain, &[1]);
    let found = survey(&map.question(0, 2, 1)).expect("a chain with a handheld is a map");
    assert!(!found.is_full());
    assert_eq!((found.paths().len(), found.cut().len()), (0, 0));
    // S asks the handheld, which has nobody to ask.
    assert_eq!((found.rounds(), found.messages().len()), (1, 2));
    assert_eq!(found.log_bytes(), [1, 1, 1, 2, 2, 1, 2, 1]);

    let around = [(0, 1), (1, 3), (0, 2), (2, 3), (1, 2)];
    let map = map_of(4, &around, &[1]);
    let found = survey(&map.question(0, 3, 2)).expect("one way leads around the handheld");
    assert_eq!(found.paths().collect::<Vec<_>>(), [[0, 2, 3]]);
    assert_eq!(found.cut().collect::<Vec<_>>(), [CutItem::Radio(2)]);
}

#[test]
fn source_and_destination_are_no_handhelds() {
    let chain = [(0, 1), (1, 2)];
    let plain = map_of(3, &chain, &[]);
    let plain = survey(&plain.question(0, 2, 2)).expect("a chain is a map");
    for handhelds in [&[0][..], &[2], &[0, 2]] {
        let map = map_of(3, &chain, handhelds);
        assert_eq!(survey(&map.question(0, 2, 2)).as_ref(), Ok(&plain));
    }
}

#[test]
fn handhelds_make_the_log_shorter_by_a_step_each() {
    let around = [(0, 1), (1, 3), (0, 2), (2, 3), (1, 2)];
    // A is 8 without handhelds; S and T do not count among them.
    for (handhelds, steps) in [(&[][..], 8), (&[0, 3], 8), (&[1], 7), (&[0, 1, 2, 3], 6)] {
        let map = map_of(4, &around, handhelds);
        let question = map.question(0, 3, 1);
        let log = 4 * 3 * steps;
        assert!(lend(&question, log, 5, 1).is_ok());
        assert_eq!(lend(&question, log - 1, 5, 1), Err(Refusal::LogTooShort));
    }
}

#[test]
fn each_refusal_of_a_question_has_its_number() {
    // Every cell is 1: 24 handhelds, and more links than a map may have.
    let crowded = vec![1; 24 * 24];
    let cases = [
        (ask(1, &[0], 0, 0, 1), Refusal::NumberOfRadios, 1),
        (ask(65, &[0; 65 * 65], 0, 1, 1), Refusal::NumberOfRadios, 1),
        (ask(usize::MAX, &[], 0, 1, 1), Refusal::NumberOfRadios, 1),
        (ask(2, &[0, 1, 1], 0, 1, 1), Refusal::TableLength, 2),
        (
            ask(2, &[0, 2, 2, 0], 0, 1, 1),
            Refusal::CellValue(cell(1, 0, 1)),
            3,
        ),
        (
            ask(2, &[0, 1, 1, 2], 0, 1, 1),
            Refusal::CellValue(cell(3, 1, 1)),
            3,
        ),
        (
            ask(2, &[0, 1, 0, 0], 0, 1, 1),
            Refusal::CellMirror(cell(1, 0, 1)),
            13,
        ),
        (ask(24, &crowded, 0, 1, 1), Refusal::TooManyLinks, 4),
        (ask(2, &PAIR, 1, 1, 1), Refusal::Ends, 5),
        (ask(2, &PAIR, 0, 256, 1), Refusal::Ends, 5),
        (ask(2, &PAIR, 0, 1, 0), Refusal::Wanted, 6),
        (ask(2, &PAIR, 0, 1, 257), Refusal::Wanted, 6),
    ];
    for (question, expected, number) in cases {
        let refusal = survey(&question).expect_err("this question is not in order");
        assert_eq!(refusal, expected);
        assert_eq!(refusal.number(), number);
        assert!(refusal
            .to_string()
            .starts_with(&format!("refused {number}: ")));
    }
}

/// A table of three radios and how it is refused: where it has several faults, the earliest cell is
/// told, and at one cell the value before the others.
#[test]
fn first_bad_cell_is_told_by_its_first_fault() {
    let cases = [
        (
            [2, 0, 0, 0, 0, 0, 0, 0, 0],
            Refusal::CellValue(cell(0, 0, 0)),
        ),
        (
            [0, 0, 0, 0, 0, 0, 0, 0, 255],
            Refusal::CellValue(cell(8, 2, 2)),
        ),
        // Told at the cell above the diagonal, whatever the one below it holds.
        (
            [0, 0, 0, 0, 0, 0, 0, 1, 0],
            Refusal::CellMirror(cell(5, 1, 2)),
        ),
        (
            [0, 0, 0, 0, 0, 1, 0, 2, 0],
            Refusal::CellMirror(cell(5, 1, 2)),
        ),
        (
            [0, 0, 0, 0, 0, 2, 0, 1, 0],
            Refusal::CellValue(cell(5, 1, 2)),
        ),
        // Both faults beside a handheld, which is none, and each comes first.
        (
            [0, 0, 2, 0, 1, 1, 2, 0, 0],
            Refusal::CellValue(cell(2, 0, 2)),
        ),
        (
            [1, 1, 2, 0, 0, 0, 2, 0, 0],
            Refusal::CellMirror(cell(1, 0, 1)),
        ),
        (
            [1, 0, 0, 0, 2, 1, 0, 0, 1],
            Refusal::CellValue(cell(4, 1, 1)),
        ),
    ];
    for (table, expected) in cases {
        // The other faults of the question come after those of its table.
        for question in [ask(3, &table, 0, 2, 1), ask(3, &table, 3, 3, 0)] {
            let refusal = survey(&question).expect_err("this table is not in order");
            assert_eq!(refusal, expected, "{table:?}");
            assert_eq!(lend(&question, 0, 0, 0), Err(expected));
        }
    }
}

#[test]
fn refusal_of_a_cell_has_the_cell_and_names_its_radios() {
    let cases = [
        (
            Refusal::CellValue(cell(5, 1, 2)),
            "refused 3: the table's cell at place 5 (row 1, column 2) is not 0 or 1",
        ),
        (
            Refusal::CellMirror(cell(5, 1, 2)),
            "refused 13: radio 1 and radio 2 do not say the same of their link: \
             the table's cell at place 5 (row 1, column 2) differs from its mirror cell",
        ),
    ];
    for (refusal, words) in cases {
        assert!(refusal.cell().is_some());
        assert_eq!(refusal.to_string(), words);
    }
    assert_eq!(Refusal::Ends.cell(), None);
}

#[test]
fn last_cells_of_the_largest_table_are_told() {
    let last = |place, held| {
        let mut table = vec![0; 64 * 64];
        table[place] = held;
        survey(&ask(64, &table, 0, 1, 1)).expect_err("this table is not in order")
    };
    assert_eq!(last(4095, 2), Refusal::CellValue(cell(4095, 63, 63)));
    assert_eq!(last(4031, 1), Refusal::CellMirror(cell(4031, 62, 63)));
    assert_eq!(last(4094, 1), Refusal::CellMirror(cell(4031, 62, 63)));
}

/// Lends buffers of these lengths, full of a byte that must not stay.
fn lend(
    question: &Question,
    log: usize,
    paths: usize,
    cut: usize,
) -> Result<Vec<CutItem>, Refusal> {
    let (mut log, mut paths, mut cut) = (vec![0xAA; log], vec![0xAA; paths], vec![0xAA; cut]);
    let lent = Buffers {
        log: &mut log,
        paths: &mut paths,
        cut: &mut cut,
    };
    let items = survey_into(question, lent).map(|found| found.cut().collect());
    if items.is_err() {
        let left = log.iter().chain(&paths).chain(&cut);
        assert!(
            left.copied().all(|byte| byte == 0),
            "a refusal leaves zeros"
        );
    }
    items
}

#[test]
fn lent_buffers_are_enough_exactly_where_the_paper_says() {
    let question = ask(2, &PAIR, 0, 1, 2);
    assert_eq!(lend(&question, 20, 6, 2), Ok(vec![CutItem::DirectLink]));
    assert_eq!(lend(&question, 21, 7, 3), Ok(vec![CutItem::DirectLink]));
    assert_eq!(lend(&question, 19, 6, 2), Err(Refusal::LogTooShort));
    assert_eq!(lend(&question, 20, 5, 2), Err(Refusal::ListTooShort));
    assert_eq!(lend(&question, 20, 6, 1), Err(Refusal::ListTooShort));
    assert_eq!(lend(&question, 0, 0, 0), Err(Refusal::LogTooShort));
}

#[test]
fn largest_maps_fit_the_buffers_that_are_always_enough() {
    // 64 radios and 256 links: radio i linked to the four after it, in a ring.
    let mut table = vec![0; 64 * 64];
    for radio in 0..64 {
        for reach in 1..=4 {
            let other = (radio + reach) % 64;
            table[radio * 64 + other] = 1;
            table[other * 64 + radio] = 1;
        }
    }
    let question = ask(64, &table, 0, 32, 8);
    let own = survey(&question).expect("64 radios and 256 links are a map");
    assert!(own.is_full());
    let (mut log, mut paths, mut cut) = (
        [1; LOG_ALWAYS_ENOUGH],
        [1; PATHS_ALWAYS_ENOUGH],
        [1; CUT_ALWAYS_ENOUGH],
    );
    let lent = Buffers {
        log: &mut log,
        paths: &mut paths,
        cut: &mut cut,
    };
    let lent = survey_into(&question, lent).expect("the same map");
    assert!(own.paths().eq(lent.paths()));
    assert!(own.messages().eq(lent.messages()));
    assert!(own.cut().eq(lent.cut()));
    assert_eq!(own.paths().len(), 8);
}

//! The records through the static library: of a survey, of path lists from elsewhere, each refusal.

use fogsignaller::{
    routes_into, survey, survey_into, Buffers, PathList, Question, Refusal, Role, Route,
    ROUTES_ALWAYS_ENOUGH,
};

/// What a lent list holds before; no record is ever like it.
const OLD: Route = Route {
    role: Role::Sink,
    path: Some(7),
    before: Some(7),
    after: Some(7),
};

fn end(role: Role) -> Route {
    Route {
        role,
        path: None,
        before: None,
        after: None,
    }
}

fn off() -> Route {
    end(Role::OffPaths)
}

fn on(path: u8, before: u8, after: u8) -> Route {
    Route {
        role: Role::OnPath,
        path: Some(path),
        before: Some(before),
        after: Some(after),
    }
}

fn list(radios: usize, count: usize, bytes: &[u8]) -> PathList<'_> {
    PathList {
        radios,
        count,
        bytes,
    }
}

/// Lends that many records. Those past n must be as they were, and after a refusal all of them.
fn lend(list: &PathList, records: usize) -> Result<Vec<Route>, Refusal> {
    let mut lent = vec![OLD; records];
    let routes = routes_into(list, &mut lent).map(<[Route]>::to_vec);
    let filled = routes.as_ref().map_or(0, Vec::len);
    assert!(lent[filled..].iter().all(|&route| route == OLD));
    if let Ok(routes) = &routes {
        assert_eq!(lent[..filled], routes[..]);
        assert_eq!(filled, list.radios);
    }
    routes
}

#[test]
fn survey_with_own_and_with_lent_bytes_gives_its_records() {
    // Two ways from 3 to 0, by 1 and by 2; radio 4 hangs on 1 and leads nowhere.
    let mut table = [0; 5 * 5];
    for (one, other) in [(0, 1), (0, 2), (1, 3), (1, 4), (2, 3)] {
        table[one * 5 + other] = 1;
        table[other * 5 + one] = 1;
    }
    let question = Question {
        radios: 5,
        table: &table,
        source: 3,
        destination: 0,
        wanted: 2,
    };
    let expected = [
        end(Role::Sink),
        on(1, 3, 0),
        on(2, 3, 0),
        end(Role::Source),
        off(),
    ];
    let own = survey(&question).expect("five radios are a map");
    assert_eq!(own.routes_into(&mut [OLD; 5]), Ok(&expected[..]));
    assert_eq!(own.path_list(), list(5, 2, &[3, 3, 1, 0, 3, 3, 2, 0]));

    let (mut log, mut paths, mut cut) = ([1; 500], [1; 50], [1; 5]);
    let buffers = Buffers {
        log: &mut log,
        paths: &mut paths,
        cut: &mut cut,
    };
    let lent = survey_into(&question, buffers).expect("the same map");
    assert_eq!(lent.path_list(), own.path_list());
    assert_eq!(
        lent.routes_into(&mut [OLD; ROUTES_ALWAYS_ENOUGH]),
        Ok(&expected[..])
    );
    assert_eq!(
        lent.routes_into(&mut [OLD; 4]),
        Err(Refusal::RoutesTooShort)
    );
}

#[test]
fn no_paths_leave_every_radio_off_them() {
    let question = Question {
        radios: 2,
        table: &[0; 4],
        source: 0,
        destination: 1,
        wanted: 1,
    };
    let found = survey(&question).expect("a map may be without links");
    assert_eq!(found.routes_into(&mut [OLD; 3]), Ok(&[off(); 2][..]));
    assert_eq!(lend(&list(64, 0, &[]), 64), Ok(vec![off(); 64]));
    assert_eq!(lend(&list(2, 0, &[255]), 9), Ok(vec![off(); 2]));
}

#[test]
fn bytes_past_the_last_path_are_not_read() {
    let direct = vec![end(Role::Source), end(Role::Sink), off()];
    for bytes in [&[2, 0, 1][..], &[2, 0, 1, 255], &[2, 0, 1, 2, 0, 1]] {
        assert_eq!(lend(&list(3, 1, bytes), 3), Ok(direct.clone()));
    }
}

#[test]
fn longest_path_and_most_paths_are_in_order() {
    let through_all: Vec<u8> = [64].into_iter().chain(0..64).collect();
    let routes = lend(&list(64, 1, &through_all), 80).expect("all 64 radios in a row");
    assert_eq!(routes[0], end(Role::Source));
    assert_eq!(routes[62], on(1, 61, 63));
    assert_eq!(routes[63], end(Role::Sink));

    let eight: Vec<u8> = (2..10).flat_map(|radio| [3, 0, radio, 1]).collect();
    let routes = lend(&list(10, 8, &eight), 10).expect("eight paths of three radios");
    assert_eq!(routes[9], on(8, 0, 1));
    // One path more, and every radio of it is a new one.
    let nine: Vec<u8> = (2..11).flat_map(|radio| [3, 0, radio, 1]).collect();
    assert_eq!(
        lend(&list(11, 8, &nine), 11).map(|routes| routes[10]),
        Ok(off())
    );
    assert_eq!(lend(&list(11, 9, &nine), 11), Err(Refusal::PathList));
}

#[test]
fn each_refusal_of_a_path_list_has_its_number() {
    let cases = [
        (list(1, 0, &[]), 1, Refusal::NumberOfRadios, 1),
        (list(65, 0, &[]), 65, Refusal::NumberOfRadios, 1),
        (
            list(usize::MAX, 1, &[2, 0, 1]),
            9,
            Refusal::NumberOfRadios,
            1,
        ),
        (list(0, 9, &[]), 0, Refusal::NumberOfRadios, 1),
        (list(2, 1, &[2, 0, 1]), 1, Refusal::RoutesTooShort, 20),
        (list(2, 9, &[]), 0, Refusal::RoutesTooShort, 20),
        (list(2, usize::MAX, &[2, 0, 1]), 2, Refusal::PathList, 21),
        // The list ends before its path does, or before the path begins.
        (list(4, 1, &[]), 4, Refusal::PathList, 21),
        (list(4, 1, &[3, 0, 1]), 4, Refusal::PathList, 21),
        (list(4, 2, &[2, 0, 3]), 4, Refusal::PathList, 21),
        // No path, half a path, a radio beyond n, a radio twice.
        (list(4, 1, &[0]), 4, Refusal::PathList, 21),
        (list(4, 1, &[1, 0]), 4, Refusal::PathList, 21),
        (list(4, 1, &[3, 0, 4, 3]), 4, Refusal::PathList, 21),
        (list(4, 1, &[4, 0, 1, 1, 3]), 4, Refusal::PathList, 21),
        (list(4, 1, &[3, 0, 3, 0]), 4, Refusal::PathList, 21),
        // Another first radio, another last, one in between on two paths, the direct link twice.
        (list(4, 2, &[2, 0, 3, 3, 1, 2, 3]), 4, Refusal::PathList, 21),
        (list(4, 2, &[2, 0, 3, 3, 0, 1, 2]), 4, Refusal::PathList, 21),
        (
            list(4, 2, &[3, 0, 1, 3, 4, 0, 2, 1, 3]),
            4,
            Refusal::PathList,
            21,
        ),
        (list(4, 2, &[2, 0, 3, 2, 0, 3]), 4, Refusal::PathList, 21),
    ];
    for (list, records, expected, number) in cases {
        let refusal = lend(&list, records).expect_err("this path list is not in order");
        assert_eq!(refusal, expected, "{list:?}");
        assert_eq!(refusal.number(), number);
        assert!(refusal
            .to_string()
            .starts_with(&format!("refused {number}: ")));
    }
}

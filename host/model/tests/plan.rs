//! Who will ring tonight: the request's sentences and their readings.
#![forbid(unsafe_code)]

use model::plan::{lines, rehearse, text, write, Ending, Forward, Panel, Rehearsed};
use model::{plans, random::Random, Station};
use std::io::Write;
use std::process::{Command, Stdio};

/// A panel from `cfu cfb cfnr busy unattended`.
fn panel(numbers: [u16; 5]) -> Panel {
    let [cfu, cfb, cfnr, busy, unattended] = numbers;
    Panel {
        cfu,
        cfb,
        cfnr,
        busy,
        unattended,
    }
}

fn plan(rows: &[[u16; 5]]) -> Vec<Panel> {
    rows.iter().map(|row| panel(*row)).collect()
}

/// Last panel, ending and counter.
fn answer(rows: &[[u16; 5]], start: u16) -> (u16, Ending, u8) {
    let done = rehearse(&plan(rows), start).unwrap();
    (done.last, done.ending, done.counter)
}

/// Panels that forward by cfu, each to the next, and a last one that rings.
fn row(forwards: u16) -> Vec<Panel> {
    let forward = |to| panel([to, 0, 0, 0, 0]);
    let mut panels: Vec<Panel> = (2..forwards + 2).map(forward).collect();
    panels.push(Panel::default());
    panels
}

#[test]
fn cfu_then_cfb_then_busy_then_cfnr_then_rings() {
    let rest = [[0; 5], [0; 5], [0; 5]];
    let first = |row: [u16; 5]| {
        let rows = [[row].as_slice(), &rest].concat();
        rehearse(&plan(&rows), 1).unwrap()
    };
    for (row, reason, last) in [
        ([2, 3, 4, 1, 1], Forward::Cfu, 2),
        ([2, 3, 4, 0, 0], Forward::Cfu, 2),
        ([0, 3, 4, 1, 1], Forward::Cfb, 3),
        ([0, 3, 4, 1, 0], Forward::Cfb, 3),
        ([0, 3, 4, 0, 1], Forward::Cfnr, 4),
    ] {
        let done = first(row);
        assert_eq!(done.way, [(1, reason)], "{row:?}");
        assert_eq!(done.last, last, "{row:?}");
        assert_eq!((done.ending, done.counter), (Ending::Rings, 1), "{row:?}");
    }
    for (row, ending) in [
        ([0, 3, 4, 0, 0], Ending::Rings),
        ([0; 5], Ending::Rings),
        ([0, 0, 0, 1, 0], Ending::Busy),
    ] {
        let done = first(row);
        assert_eq!((done.last, done.ending, done.counter), (1, ending, 0));
        assert!(done.way.is_empty());
    }
}

#[test]
fn busy_without_cfb_ends_as_busy_also_where_cfnr_is_set() {
    let rows = [[0, 0, 2, 1, 1], [0; 5]];
    assert_eq!(answer(&rows, 1), (1, Ending::Busy, 0));
}

#[test]
fn unattended_without_cfnr_rings() {
    let rows = [[0, 2, 0, 0, 1], [0; 5]];
    assert_eq!(answer(&rows, 1), (1, Ending::Rings, 0));
}

#[test]
fn at_the_limit_the_last_panel_wanted_to_forward() {
    let limit = Station::short().limit;
    let most = u16::from(limit);
    let reached = rehearse(&row(most), 1).unwrap();
    assert_eq!(
        (reached.last, reached.ending, reached.counter),
        (most + 1, Ending::Rings, limit)
    );
    let passed = rehearse(&row(most + 1), 1).unwrap();
    assert_eq!(
        (passed.last, passed.ending, passed.counter),
        (most + 1, Ending::Limit, limit)
    );
    assert_eq!(passed.way, reached.way);
    // A panel at the limit that wants no forward has its own ending.
    let mut busy = row(most);
    busy[usize::from(limit)].busy = 1;
    assert_eq!(rehearse(&busy, 1).unwrap().ending, Ending::Busy);
    // The start may stand anywhere: one forward less is left.
    assert_eq!(rehearse(&row(most + 1), 2).unwrap().ending, Ending::Rings);
}

#[test]
fn a_circle_ends_at_the_limit() {
    let limit = Station::short().limit;
    assert_eq!(answer(&[[1, 0, 0, 0, 0]], 1), (1, Ending::Limit, limit));
    let two = [[2, 0, 0, 0, 0], [0, 1, 0, 1, 0]];
    let done = rehearse(&plan(&two), 1).unwrap();
    assert_eq!(done.last, 1 + u16::from(limit) % 2);
    assert_eq!(done.way[..2], [(1, Forward::Cfu), (2, Forward::Cfb)]);
    assert_eq!(done.way.len(), usize::from(limit));
}

#[test]
fn the_limit_is_the_short_forms() {
    let limit = Station::short().limit;
    assert_eq!(limit, 5);
    for (forwards, ending) in [(4, Ending::Rings), (5, Ending::Rings), (6, Ending::Limit)] {
        let done = rehearse(&row(forwards), 1).unwrap();
        assert_eq!(
            (done.ending, done.counter),
            (ending, limit.min(forwards as u8))
        );
    }
}

#[test]
fn an_empty_plan_and_one_over_256_are_3() {
    for (count, code) in [(0, Err(3)), (1, Ok(())), (256, Ok(())), (257, Err(3))] {
        let panels = vec![Panel::default(); count];
        assert_eq!(rehearse(&panels, 1).map(|_| ()), code, "{count} panels");
    }
    // A count of 16 bits would take these for 1.
    assert_eq!(rehearse(&vec![Panel::default(); 65_537], 1), Err(3));
}

#[test]
fn a_start_outside_the_plan_is_3() {
    let panels = vec![Panel::default(); 4];
    for (start, taken) in [
        (0, false),
        (1, true),
        (4, true),
        (5, false),
        (65_535, false),
    ] {
        let found = rehearse(&panels, start);
        assert_eq!(found.is_ok(), taken, "start {start}");
        assert!(taken || found == Err(3));
    }
}

#[test]
fn a_destination_outside_the_plan_is_3_reached_or_not() {
    for at in 0..3 {
        for field in 0..3 {
            for (to, taken) in [(0, true), (3, true), (4, false), (65_535, false)] {
                let mut rows = [[0; 5]; 3];
                rows[at][field] = to;
                let found = rehearse(&plan(&rows), 1);
                assert_eq!(found.is_ok(), taken, "panel {at}, field {field}, {to}");
                assert!(taken || found == Err(3));
            }
        }
    }
    // Reached: the call would be offered to it.
    assert_eq!(rehearse(&plan(&[[2, 0, 0, 0, 0]]), 1), Err(3));
    assert_eq!(rehearse(&plan(&[[0, 2, 0, 1, 0]]), 1), Err(3));
    assert_eq!(rehearse(&plan(&[[0, 0, 2, 0, 1]]), 1), Err(3));
}

#[test]
fn a_mark_above_1_is_3() {
    for at in 0..2 {
        for field in 3..5 {
            for value in [2, 255, 256, 65_535] {
                let mut rows = [[0; 5]; 2];
                rows[at][field] = value;
                assert_eq!(rehearse(&plan(&rows), 1), Err(3));
            }
        }
    }
}

#[test]
fn the_lines() {
    let done = Rehearsed {
        last: 12,
        ending: Ending::Rings,
        counter: 2,
        way: vec![(3, Forward::Cfu), (7, Forward::Cfnr)],
    };
    assert_eq!(lines(&Ok(done)), "0 12 rings 2\n3 cfu 7 cfnr 12\n");
    let busy = rehearse(&plan(&[[0, 0, 0, 1, 1]]), 1);
    assert_eq!(lines(&busy), "0 1 busy 0\n1\n");
    assert_eq!(lines(&rehearse(&[], 1)), "3 - - -\n");
}

#[test]
fn texts_that_are_plans() {
    let two = plan(&[[2, 0, 0, 0, 1], [0, 65_535, 0, 7, 0]]);
    let lines = "1\n2 0 0 0 1\n0 65535 0 7 0\n";
    assert_eq!(text(lines.as_bytes()), Ok((two.clone(), 1)));
    assert_eq!(text(lines.trim_end().as_bytes()), Ok((two.clone(), 1)));
    assert_eq!(write(&two, 1), lines);
    let zeros = b"000000001\n02 00 0 0 0000000000000000000000001\n0 0065535 0 7 0";
    assert_eq!(text(zeros), Ok((two, 1)));
    // A start alone is the text of an empty plan.
    assert_eq!(text(b"0\n"), Ok((vec![], 0)));
    assert_eq!(text(b"65535"), Ok((vec![], 65_535)));
}

/// Texts that are no plan, and the first faulty line.
const FAULTS: [(&[u8], usize); 22] = [
    (b"", 1),
    (b"\n", 1),
    (b"\n1\n", 1),
    (b"-1\n", 1),
    (b"+1\n", 1),
    (b" 1\n", 1),
    (b"1 \n", 1),
    (b"1\r\n", 1),
    (b"65536\n", 1),
    (b"1 2\n", 1),
    (b"x\n0 0 0\n", 1),
    (b"\xff\n", 1),
    (b"1\n\n", 2),
    (b"1\n0 0 0 0\n", 2),
    (b"1\n0 0 0 0 0 0\n", 2),
    (b"1\n0  0 0 0\n", 2),
    (b"1\n0 0 0 0 0 \n", 2),
    (b"1\n0 0 0 0\t0\n", 2),
    (b"1\n0 0 0 0 65536\n", 2),
    (b"1\n0 0 0 0 100000000000000000000\n", 2),
    (b"1\n0 0 0 0 0\n\n0 0 0 0 0\n", 3),
    (b"1\n0 0 0 0 0\n0 0 0 0 0\n\n", 4),
];

#[test]
fn a_text_that_is_no_plan_names_its_first_faulty_line() {
    for (input, line) in FAULTS {
        let shown = String::from_utf8_lossy(input);
        assert_eq!(text(input), Err(line), "{shown:?}");
    }
}

#[test]
fn plans_round_trip() {
    let mut random = Random::new(6);
    for _ in 0..400 {
        let (panels, start) = plans::any(&mut random);
        let written = write(&panels, start);
        assert_eq!(text(written.as_bytes()), Ok((panels, start)));
    }
}

/// What the program prints, its errors and whether it ends well.
fn run(input: &[u8]) -> (String, String, bool) {
    let mut child = Command::new(env!("CARGO_BIN_EXE_modelrehearse"))
        .stdin(Stdio::piped())
        .stdout(Stdio::piped())
        .stderr(Stdio::piped())
        .spawn()
        .unwrap();
    child.stdin.take().unwrap().write_all(input).unwrap();
    let output = child.wait_with_output().unwrap();
    let said = |bytes| String::from_utf8(bytes).unwrap();
    assert!(output.status.success() || output.status.code() == Some(1));
    (
        said(output.stdout),
        said(output.stderr),
        output.status.success(),
    )
}

#[test]
fn the_program() {
    let none = String::new;
    let rings = "0 2 rings 1\n1 cfu 2\n".to_string();
    assert_eq!(run(b"1\n2 0 0 0 0\n0 0 0 0 0\n"), (rings, none(), true));
    let refused = "3 - - -\n".to_string();
    assert_eq!(run(b"2\n0 0 0 0 0\n"), (refused, none(), true));
    let fault = "rehearse: line 2 is no part of a plan\n".to_string();
    assert_eq!(run(b"1\n0 0 0 0\n"), (none(), fault, false));
}

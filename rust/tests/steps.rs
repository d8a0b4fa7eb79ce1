//! `docs/STEPS.md` is true: its tables are what the second program prints, and what the proved library
//! answers and writes.

use second::card::card_bytes;
use staplethread::{build, build_within, check, trim, Depth, Report, Which};
use std::fs;
use std::path::Path;

/// No table is longer.
const LONGEST_TABLE: usize = 65_536;

fn document() -> String {
    let path = Path::new(env!("CARGO_MANIFEST_DIR")).join("../docs/STEPS.md");
    fs::read_to_string(&path).unwrap_or_else(|why| panic!("{}: {why}", path.display()))
}

/// The tables of a text, each with its head, its rule and its rows, as they stand.
fn tables(text: &str) -> Vec<String> {
    let mut tables = Vec::new();
    let mut is_inside = false;
    for line in text.lines() {
        if line.starts_with('|') {
            if !is_inside {
                tables.push(String::new());
            }
            let table = tables.last_mut().expect("one was begun");
            table.push_str(line);
            table.push('\n');
        }
        is_inside = line.starts_with('|');
    }
    tables
}

/// The cells of a table's rows, without its head and its rule.
fn rows(table: &str) -> Vec<Vec<&str>> {
    table
        .lines()
        .skip(2)
        .map(|line| line.trim_matches('|').split('|').map(str::trim).collect())
        .collect()
}

/// A row of `second steps`: base, best with no cap, and best within the base's depth.
struct Row {
    p: u8,
    base: (u32, u16),
    best: [(u8, u32, u16); 2],
}

fn steps(table: &str) -> Vec<Row> {
    let number = |cell: &str| cell.parse::<u32>().expect("a number");
    rows(table)
        .into_iter()
        .map(|cells| {
            let cells: Vec<u32> = cells.into_iter().map(number).collect();
            let best = |i: usize| (cells[i] as u8, cells[i + 1], cells[i + 2] as u16);
            assert_eq!(cells.len(), 9, "{cells:?}");
            Row {
                p: cells[0] as u8,
                base: (cells[1], cells[2] as u16),
                best: [best(3), best(6)],
            }
        })
        .collect()
}

/// Each row is what the library answers for "<" of one digit, with so much for a square and by this
/// measure of a report: the base table, and the best step size with no cap and within the base's depth.
fn expect_library(rows: &[Row], weight: u8, measure: impl Fn(&Report) -> u32) {
    for row in rows {
        let card = card_bytes(row.p, weight, &[(1, 1)]);
        let mut base = vec![0; LONGEST_TABLE];
        let report = build(&card, &mut base).expect("it has room");
        assert_eq!((measure(&report), report.depth.0), row.base, "{}", row.p);
        for (cap, (step, most, depth)) in [u16::MAX, report.depth.0].into_iter().zip(row.best) {
            let (mut first, mut second) = (vec![0; LONGEST_TABLE], vec![0; LONGEST_TABLE]);
            let part = build_within(&card, Depth(cap), &mut first, &mut second)
                .expect("the base is within the cap");
            let (which, told) = (part.which, part.report);
            assert_eq!(first, base, "{} {cap}", row.p);
            let stepped = check(&second).expect("it was written");
            assert_eq!((measure(&stepped), stepped.depth.0), (most, depth));
            let is_first = report.cost <= stepped.cost;
            assert_eq!(which == Which::First, is_first, "{} {cap}", row.p);
            assert_eq!(told, if is_first { report } else { stepped });
            let mut expected = vec![0; LONGEST_TABLE];
            second::build_step(&card, step, &mut expected).expect("it has room");
            assert_eq!(trim(&second), trim(&expected), "{} {cap} {step}", row.p);
        }
    }
}

#[test]
fn tables_are_what_is_printed_and_what_the_library_answers() {
    let document = document();
    let told = tables(&document);
    let printed = tables(&second::step_tables());
    assert_eq!(told.len(), 3);
    assert_eq!(told[..2], printed[..]);

    let costs = steps(&told[0]);
    assert!(costs.iter().map(|row| row.p).eq(second::field::PRIMES));
    expect_library(&costs, 75, |report| report.cost.0);
    expect_library(&steps(&told[1]), 100, |report| {
        u32::from(report.products) + u32::from(report.squares)
    });

    // What the text says of the first table.
    let deeper = costs.iter().filter(|row| row.best[0].2 > row.base.1);
    assert_eq!(deeper.count(), 15);
    let dearer = costs.iter().filter(|row| row.best[1].1 >= row.base.0);
    assert!(dearer.map(|row| row.p).eq([3]));
}

/// "10 at 5": so many products and squares at such a depth.
fn at((count, depth): (u32, u16)) -> String {
    format!("{count} at {depth}")
}

#[test]
fn published_counts_stand_beside_ours() {
    let document = document();
    let told = tables(&document);
    let beside = rows(&told[2]);
    let ours = steps(&told[1]);
    assert_eq!(beside.len(), ours.len());
    for (cells, row) in beside.iter().zip(ours) {
        let [free, capped] = row.best.map(|(_, count, depth)| at((count, depth)));
        let best = if free == capped {
            free
        } else {
            format!("{capped}, {free}")
        };
        assert_eq!(cells[..3], [row.p.to_string(), at(row.base), best]);
        assert_eq!(cells.len(), 7);
    }
}

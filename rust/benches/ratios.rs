//! Times the proved library against the second program, both built for release, on the same
//! inputs in one run, and prints a table of ratios. No buffer is cleared between calls.

use second::card::{card_bytes, score_card_bytes, shared_card_bytes};
use std::hint::black_box;
use std::time::Instant;

#[path = "../tests/shapes/mod.rs"]
mod shapes;

/// Turns that each side takes; the best of each counts.
const TURNS: usize = 60;

/// Gates that one turn works on, about, so that a turn is long enough for the clock.
const GATES_A_TURN: usize = 200_000;

struct Row {
    operation: &'static str,
    card: &'static str,
    library: f64,
    plain: f64,
}

/// Has a call's answer computed, though nobody reads it.
fn keep<T>(answer: T) {
    black_box(answer);
}

/// The time of one call in nanoseconds, over `calls` calls.
fn time(calls: usize, call: &mut dyn FnMut()) -> f64 {
    let start = Instant::now();
    for _ in 0..calls {
        call();
    }
    start.elapsed().as_nanos() as f64 / calls as f64
}

/// Both sides in turn, so that a disturbance meets both; the best of each.
fn compare(calls: usize, library: &mut dyn FnMut(), plain: &mut dyn FnMut()) -> (f64, f64) {
    let (mut first, mut second) = (f64::MAX, f64::MAX);
    for _ in 0..TURNS {
        first = first.min(time(calls, library));
        second = second.min(time(calls, plain));
    }
    (first, second)
}

fn rows(name: &'static str, card: &[u8]) -> Vec<Row> {
    let report = staplethread::forecast(card).expect("the card is accepted");
    let gates = usize::from(report.gates);
    let calls = GATES_A_TURN / (gates + 20);
    let mut ours = vec![0; report.table_bytes()];
    let mut theirs = ours.clone();
    let build = compare(
        calls,
        &mut || keep(staplethread::build(black_box(card), &mut ours)),
        &mut || keep(second::build(black_box(card), &mut theirs)),
    );
    assert_eq!(ours, theirs);
    let forecast = compare(
        calls * 4,
        &mut || keep(staplethread::forecast(black_box(card))),
        &mut || keep(second::forecast(black_box(card))),
    );
    let table = ours;
    let check = compare(
        calls,
        &mut || keep(staplethread::check(black_box(&table))),
        &mut || keep(second::check(black_box(&table))),
    );
    let counts = shapes::slot_counts(&table);
    let (left, right) = (vec![1; counts.0.into()], vec![0; counts.1.into()]);
    let (mut work, mut values) = (vec![0; gates], vec![0; gates]);
    let run = compare(
        calls,
        &mut || {
            keep(staplethread::run(
                black_box(&table),
                &left,
                &right,
                &mut work,
            ))
        },
        &mut || keep(second::run(black_box(&table), &left, &right, &mut values)),
    );
    assert_eq!(work, values);
    let (mut list, mut expected) = (vec![0; gates], vec![0; gates]);
    let last_uses = compare(
        calls,
        &mut || keep(staplethread::last_uses(black_box(&table), &mut list)),
        &mut || keep(second::last_uses(black_box(&table), &mut expected)),
    );
    assert_eq!(list, expected);
    [
        ("Build", build),
        ("Forecast", forecast),
        ("Check", check),
        ("Run", run),
        ("Last uses", last_uses),
    ]
    .into_iter()
    .map(|(operation, (library, plain))| Row {
        operation,
        card: name,
        library,
        plain,
    })
    .collect()
}

/// Build against a plain copy of the table's bytes.
fn copy_row(name: &'static str, card: &[u8]) -> Row {
    let report = staplethread::forecast(card).expect("the card is accepted");
    let mut table = vec![0; report.table_bytes()];
    let mut source = table.clone();
    staplethread::build(card, &mut source).expect("it has room");
    let mut copy = table.clone();
    let calls = GATES_A_TURN / (usize::from(report.gates) + 20);
    let (library, plain) = compare(
        calls,
        &mut || keep(staplethread::build(black_box(card), &mut table)),
        &mut || {
            copy.copy_from_slice(black_box(&source));
            black_box(&mut copy);
        },
    );
    Row {
        operation: "Build, against a copy",
        card: name,
        library,
        plain,
    }
}

/// No table is longer.
const LONGEST_TABLE: usize = 65_536;

/// A search by the same rules and no other means: the table of each step size is written and asked
/// after, as `build_step` does, and the best one is written once more. Any depth is within the cap.
fn plain_search(card: &[u8], first: &mut [u8], second: &mut [u8], scratch: &mut [u8]) -> u32 {
    let base = second::build(card, first).expect("it has room");
    let report_of = |step: u8, table: &mut [u8]| {
        second::build_step(card, step, table).expect("it has room for every step size")
    };
    let best = (1..=(card[2] - 1) / 2)
        .min_by_key(|&step| {
            let report = report_of(step, scratch);
            (report.cost, report.depth)
        })
        .expect("there is a step size");
    let stepped = report_of(best, second);
    base.cost.min(stepped.cost).0
}

/// Build within a depth cap of any depth, against the second program's, which counts the tables of
/// step sizes without writing them, and against a search that writes them all.
fn within_rows(name: &'static str, card: &[u8]) -> Vec<Row> {
    let cap = staplethread::Depth(u16::MAX);
    let report = staplethread::forecast(card).expect("the card is accepted");
    let steps = usize::from(card[2] / 2);
    let calls = (GATES_A_TURN / (steps * usize::from(report.gates) + 20)).max(1);
    let blank = || vec![0; LONGEST_TABLE];
    let (mut first, mut second) = (blank(), blank());
    let mut library = || {
        let part = staplethread::build_within(black_box(card), cap, &mut first, &mut second);
        keep(part);
    };
    let mut theirs = (blank(), blank());
    let counted = compare(calls, &mut library, &mut || {
        let (first, second) = (&mut theirs.0, &mut theirs.1);
        keep(second::build_within(black_box(card), cap.0, first, second));
    });
    let (mut searched, mut scratch) = ((blank(), blank()), blank());
    let written = compare(calls, &mut library, &mut || {
        let (first, second) = (&mut searched.0, &mut searched.1);
        keep(plain_search(black_box(card), first, second, &mut scratch));
    });
    let ours = (first, second);
    assert!(ours == theirs && ours == searched);
    [
        ("Build within a cap", counted),
        ("Build within a cap, against writing each table", written),
    ]
    .into_iter()
    .map(|(operation, (library, plain))| Row {
        operation,
        card: name,
        library,
        plain,
    })
    .collect()
}

/// A whole card through the library's begin, add and finish.
fn fill_in(card: &[u8], table: &mut [u8]) {
    let mut filling = staplethread::Filling::over(table);
    filling.begin(card[2], card[3]).expect("it has room");
    for record in card[6..].chunks(4) {
        filling.add(record).expect("it has room");
    }
    keep(filling.finish());
}

/// The same through the second program's.
fn plain_fill_in(card: &[u8], table: &mut [u8]) {
    let mut filling = second::Filling::new();
    let begun = filling.begin(card[2], card[3], table);
    begun.expect("it has room");
    for record in card[6..].chunks(4) {
        filling.add(record, table).expect("it has room");
    }
    keep(filling.finish(table));
}

/// A plain card filled in condition by condition, against the second program's, which works the table
/// out anew at each call, and against the second program's Build in one go.
fn filling_rows(name: &'static str, card: &[u8]) -> Vec<Row> {
    let report = staplethread::forecast(card).expect("the card is accepted");
    let calls = GATES_A_TURN / (usize::from(report.gates) + 20);
    let mut ours = vec![0; report.table_bytes()];
    let mut theirs = ours.clone();
    let anew = compare(
        calls,
        &mut || fill_in(black_box(card), &mut ours),
        &mut || plain_fill_in(black_box(card), &mut theirs),
    );
    assert_eq!(ours, theirs);
    let one_go = compare(
        calls,
        &mut || fill_in(black_box(card), &mut ours),
        &mut || keep(second::build(black_box(card), &mut theirs)),
    );
    assert_eq!(ours, theirs);
    [
        ("Begin, add, finish", anew),
        ("Begin, add, finish, against Build in one go", one_go),
    ]
    .into_iter()
    .map(|(operation, (library, plain))| Row {
        operation,
        card: name,
        library,
        plain,
    })
    .collect()
}

/// Sizes that about double, and where the library's arrays grow.
const SIZES: [u16; 7] = [256, 257, 1_000, 2_000, 2_049, 4_000, 8_191];

/// Check of tables of one shape in growing sizes: the library's time, and its ratio to plain Rust.
fn print_growth() {
    println!();
    println!(
        "| Check, ns (ratio) |{} |",
        SIZES.map(|gates| format!(" {gates}")).join(" |")
    );
    println!("|---|{}", "---|".repeat(SIZES.len()));
    for shape in shapes::SHAPES {
        let cells = SIZES.map(|gates| {
            let table = shapes::table_of(&(shape.gates)(gates));
            let told = staplethread::check(&table).expect(shape.name);
            assert_eq!(told.products, (shape.products)(gates));
            assert_eq!(told.squares, (shape.squares)(gates));
            let (library, plain) = compare(
                GATES_A_TURN / usize::from(gates),
                &mut || keep(staplethread::check(black_box(&table))),
                &mut || keep(second::check(black_box(&table))),
            );
            format!(" {library:.0} ({:.2})", library / plain)
        });
        println!("| {} |{} |", shape.name, cells.join(" |"));
    }
}

fn print_rows(card: &[u8], rows: &[Row]) {
    let gates = staplethread::forecast(card).expect("accepted").gates;
    for row in rows {
        println!(
            "| {} | {} | {gates} | {:.0} | {:.0} | {:.2} |",
            row.operation,
            row.card,
            row.library,
            row.plain,
            row.library / row.plain
        );
    }
}

fn main() {
    let cards = [
        ("first bench card", card_bytes(3, 75, &[(1, 1)])),
        (
            "p=31, >= of 3, > of 1, = of 2",
            card_bytes(31, 80, &[(4, 3), (3, 1), (5, 2)]),
        ),
        (
            "the same with weights 5, 3, 2",
            score_card_bytes(31, 80, &[(4, 3, 5), (3, 1, 3), (5, 2, 2)]),
        ),
        (
            "the same over left slots 0, 1, 0",
            shared_card_bytes(31, 80, &[(4, 3, 0), (3, 1, 1), (5, 2, 0)]),
        ),
        ("p=251, < of 16", card_bytes(251, 100, &[(1, 16)])),
    ];
    println!(
        "Both built for release; best of {TURNS} turns each; buffers not cleared between calls."
    );
    println!();
    println!("| operation | card | gates | library, ns | plain Rust, ns | ratio |");
    println!("|---|---|---|---|---|---|");
    for (name, card) in &cards {
        let mut lines = rows(name, card);
        if *name == cards[cards.len() - 1].0 {
            lines.push(copy_row(name, card));
        }
        print_rows(card, &lines);
    }
    let searched = [
        (
            "p=31, >= of 3, > of 1",
            card_bytes(31, 75, &[(4, 3), (3, 1)]),
        ),
        (
            "p=31, = of 2, not equal of 1",
            card_bytes(31, 75, &[(5, 2), (6, 1)]),
        ),
        ("p=251, < of 16", card_bytes(251, 100, &[(1, 16)])),
    ];
    for (name, card) in &searched {
        print_rows(card, &within_rows(name, card));
    }
    let filled = [
        &cards[0],
        &cards[1],
        &("p=31, eight < of 2", card_bytes(31, 75, &[(1, 2); 8])),
        &cards[cards.len() - 1],
    ];
    for (name, card) in filled {
        print_rows(card, &filling_rows(name, card));
    }
    print_growth();
}

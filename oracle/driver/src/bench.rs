//! How long the runs take, ours and the Rust's, on the same drawings. Not a test.

use crate::drawing::{flat, pairs, Point, MOST_POINTS, MOST_SEGMENTS, WIDTH};
use crate::generate::Make;
use crate::lines::{self, Draw};
use crate::measure;
use crate::output::CLIP_EACH;
use crate::plane::Plane;
use crate::prose::Checked;
use crate::random::Random;
use crate::shapes;
use crate::sheets::{self, Sheet};
use crate::timing::least;
use i_overlay::{Drawing, Scan};
use jumperclay::raw;
use std::hint::black_box;
use std::time::{Duration, Instant};

const SIZES: [usize; 3] = [64, 256, MOST_SEGMENTS];
pub const NON_ZERO: i32 = 1;
/// How long a row is timed before it is the next one's turn.
const A_WHILE: Duration = Duration::from_millis(50);

/// Few segments open at once, half of all open at once, and half of all at one point.
const KINDS: [(&str, Make); 3] = [("mesh", mesh), ("nested", shapes::heaped), ("fan", shapes::wheel)];

/// What is timed, on drawings with these lines.
struct Run {
    name: &'static str,
    draw: Draw,
    ours: fn(&[i32], &mut Lists),
    theirs: fn(&mut Drawing),
}

/// Without lines, so that the Rust makes no links.
const FILLS: Run = Run {
    name: "fills",
    draw: |_, _| (),
    ours: |numbers, lists| _ = black_box(raw::fills(numbers, NON_ZERO, &mut lists.fills)),
    theirs: |drawing| _ = black_box(drawing.fills(NON_ZERO)),
};

/// Inside, boundary included, with lines on most segments.
const CLIP: Run = Run {
    name: "clip",
    draw: lines::mixed,
    ours: |numbers, lists| {
        _ = black_box(raw::clip(numbers, NON_ZERO, 0, 1, &mut lists.points, &mut lists.lengths));
    },
    theirs: |drawing| _ = black_box(drawing.clip(NON_ZERO, false, true)),
};

/// Counter-clockwise and of all areas.
const SLICE: Run = Run {
    name: "slice",
    draw: |_, _| (),
    ours: |numbers, lists| {
        let Lists { points, lengths, roles, .. } = lists;
        _ = black_box(raw::slice(numbers, NON_ZERO, 0, 0, points, lengths, roles));
    },
    theirs: |drawing| _ = black_box(drawing.slice(NON_ZERO, false, 0)),
};

/// Makes so many points.
type MakePoints = fn(usize) -> Vec<Point>;

/// Lists of points to split.
const POINT_SIZES: [usize; 3] = [64, 256, MOST_POINTS];
const POINT_KINDS: [(&str, MakePoints); 3] = [
    ("all different", |n| (0..n as i32).map(|k| (k, k * k)).collect()),
    ("many repeats", |n| random_points(n, n / 4)),
    ("loops of four", |n| (0..n as i32).map(|k| [(0, 0), (k, 1), (k, 2), (k, 3)][k as usize % 4]).collect()),
];

/// What is lent, for as many segments as a drawing may have.
struct Lists {
    fills: Vec<u8>,
    roles: Vec<u8>,
    points: Vec<i32>,
    lengths: Vec<u32>,
}

const NOTE: &str = "\
Medians of one call in microseconds. Ours checks the drawing first, the Rust does not; \"without\" is ours less the
check, which is timed by itself. The Rust's files are unchanged but its scans are stand-ins: the list looks at all that
is open, the tree halves. No list is cleared between calls.";

const SHEETS_NOTE: &str = "\
The lines inside, boundary included, by the non-zero rule: medians of one call in microseconds, each right after another
of its own. Ours does every check, the Rust none; the Rust's scans are stand-ins: the list looks at all that is open, the
tree halves. \"grown\" is how many times as long ours takes at 1,024 segments as at 256.";

const ALONE_NOTE: &str = "\
Ours alone, call after call, with every check: the least of one call in microseconds, by the number of segments. Where the
code stands in the program moves it by some parts of 100, where other code runs between the calls by more.";

const COLUMNS: [&str; 8] = [
    "ours, all checks",
    "ours, without",
    "Rust, list",
    "Rust, tree",
    "all/list",
    "all/tree",
    "without/list",
    "without/tree",
];

pub fn bench() -> bool {
    bench_sheets();
    println!("\n{NOTE}");
    for run in [FILLS, CLIP, SLICE] {
        println!("\n{:<7}{:>6}  {}", run.name, "n", COLUMNS.join("  "));
        for (kind, make) in KINDS {
            for n in SIZES {
                let [all, check, list, tree] = medians(calls(&run, &drawing(make, run.draw, n)));
                let without = all - check;
                let cells = [all, without, list, tree, all / list, all / tree, without / list, without / tree];
                let cells = COLUMNS.iter().zip(cells).map(|(name, cell)| format!("{cell:>0$.1}", name.len() + 2));
                println!("{kind:<7}{n:>6}{}", cells.collect::<String>());
            }
        }
    }
    bench_check();
    bench_split();
    true
}

/// The clip run on the sheets, without the check by itself.
pub fn bench_sheets() -> bool {
    println!("{SHEETS_NOTE}");
    sheet_table::<3, _>(&["ours", "Rust, list", "Rust, tree", "ours/list", "ours/tree"], |sheet| {
        let mut calls = calls(&CLIP, &sheet.numbers);
        move |call| calls([0, 2, 3][call])
    });
    true
}

/// Ours on the drawings of `bench`, then on the sheets, with nothing else between the calls.
pub fn bench_alone() -> bool {
    println!("{ALONE_NOTE}");
    for run in [FILLS, CLIP, SLICE] {
        alone_table(run.name, &run, KINDS.map(|(kind, make)| (kind, SIZES.map(|n| drawing(make, run.draw, n)))));
    }
    alone_table("sheets", &CLIP, sheets::KINDS.map(|(kind, make)| (kind, SIZES.map(|n| make(n).numbers))));
    true
}

fn alone_table(name: &str, run: &Run, kinds: [(&str, [Vec<i32>; SIZES.len()]); 3]) {
    println!("\n{name:<7}{}", SIZES.map(|n| format!("{n:>9}")).concat());
    for (kind, drawings) in kinds {
        let cells = drawings.map(|numbers| {
            let mut call = calls(run, &numbers);
            format!("{:>9.2}", least(1, || call(0)))
        });
        println!("{kind:<7}{}", cells.concat());
    }
}

/// A row for each sheet: how long the calls take, the first of which is ours; how many times as long ours takes as each
/// of the others; and in the row of most segments how many times as long as in the row before.
pub fn sheet_table<const N: usize, C: FnMut(usize)>(columns: &[&str], calls: impl Fn(&Sheet) -> C) {
    let in_column = |name: &str, cell: &str| format!("{cell:>0$}", name.len().max(8) + 2);
    let names: String = columns.iter().map(|name| in_column(name, name)).collect();
    println!("\n{:<7}{:>6}{names}{:>8}", "sheets", "n", "grown");
    for (kind, make) in sheets::KINDS {
        let rows: [[f64; N]; SIZES.len()] = medians_of(SIZES.map(|n| calls(&make(n))), 1);
        for (row, n) in SIZES.into_iter().enumerate() {
            let times = rows[row];
            let ratios = times[1..].iter().map(|other| format!("{:.2}", times[0] / other));
            let cells = times.iter().map(|time| format!("{time:.1}")).chain(ratios);
            let cells: String = columns.iter().zip(cells).map(|(name, cell)| in_column(name, &cell)).collect();
            let grown = (n == MOST_SEGMENTS).then(|| format!("{:.1}", times[0] / rows[row - 1][0]));
            println!("{kind:<7}{n:>6}{cells}{:>8}", grown.unwrap_or_default());
        }
    }
}

/// The check alone, and how many times as long it takes as that of the size before.
fn bench_check() {
    println!("\n{:<7}{:>6}{:>10}{:>10}", "check", "n", "ours", "grown");
    for (kind, make) in KINDS {
        let drawings = SIZES.map(|n| drawing(make, lines::mixed, n));
        let times: [f64; SIZES.len()] = medians(|size| _ = black_box(measure::check(black_box(&drawings[size]))));
        for (size, n) in SIZES.into_iter().enumerate() {
            let grown = size.checked_sub(1).map(|before| format!("{:.1}", times[size] / times[before]));
            println!("{kind:<7}{n:>6}{:>10.1}{:>10}", times[size], grown.unwrap_or_default());
        }
    }
}

fn bench_split() {
    println!("\n{:<14}{:>6}{:>10}{:>10}{:>12}", "split", "points", "ours", "Rust", "ours/Rust");
    for (kind, make) in POINT_KINDS {
        for n in POINT_SIZES {
            let points = flat(&make(n));
            let (mut out, mut lengths) = (vec![0; 2 * MOST_POINTS], vec![0; MOST_POINTS]);
            let [ours, theirs] = medians(|call| match call {
                0 => _ = black_box(raw::split(black_box(&points), 0, &mut out, &mut lengths)),
                _ => _ = black_box(i_overlay::split(&pairs(black_box(&points)), 0)),
            });
            println!("{kind:<14}{n:>6}{ours:>10.1}{theirs:>10.1}{:>12.1}", ours / theirs);
        }
    }
}

/// Unit squares with a diagonal each, about as wide as high, cut off after so many edges. Each edge joins a point to an
/// earlier one, so that all that is left hangs together.
pub fn mesh(_: &mut Random, size: usize) -> Plane {
    let side = (1..).find(|side| side * (3 * side + 2) >= size as i32).expect("they grow");
    let mut plane = Plane::default();
    for (x, y) in (0..=side).flat_map(|x| (0..=side).map(move |y| (x, y))) {
        if y > 0 {
            plane.add((x, y - 1), (x, y));
        }
        if x > 0 {
            plane.add((x - 1, y), (x, y));
        }
        if x > 0 && y > 0 {
            plane.add((x - 1, y - 1), (x, y));
        }
    }
    plane.edges.truncate(size);
    plane
}

/// So many points out of a pool.
fn random_points(n: usize, pool: usize) -> Vec<Point> {
    let mut random = Random::new(&[n as u64]);
    let pool: Vec<Point> = (0..pool).map(|_| (random.within(0, 1000), random.within(0, 1000))).collect();
    (0..n).map(|_| random.pick(&pool)).collect()
}

/// A drawing of exactly n segments.
fn drawing(make: Make, draw: Draw, n: usize) -> Vec<i32> {
    let mut random = Random::new(&[n as u64]);
    let numbers = make(&mut random, n).drawing(draw, &mut random);
    assert_eq!(numbers.len(), n * WIDTH);
    assert_eq!(Checked::new(&numbers).refused, None);
    numbers
}

/// Ours, our check alone, and the Rust's with its list and with its tree.
fn calls(run: &Run, numbers: &[i32]) -> impl FnMut(usize) {
    let Run { ours, theirs, .. } = *run;
    let numbers = numbers.to_vec();
    let mut lists = Lists {
        fills: vec![0; MOST_SEGMENTS],
        roles: vec![0; 2 * MOST_SEGMENTS],
        points: vec![0; CLIP_EACH[0] * MOST_SEGMENTS],
        lengths: vec![0; CLIP_EACH[1] * MOST_SEGMENTS],
    };
    let [mut list, mut tree] = [Scan::List, Scan::Tree].map(|scan| Drawing::new(&numbers, scan));
    move |call| match call {
        0 => ours(black_box(&numbers), &mut lists),
        1 => _ = black_box(measure::check(black_box(&numbers))),
        2 => theirs(&mut list),
        _ => theirs(&mut tree),
    }
}

/// Of the calls of one row.
fn medians<const N: usize>(call: impl FnMut(usize)) -> [f64; N] {
    let [times] = medians_of([call], 0);
    times
}

/// In microseconds, over as many rounds as a second a row allows, at least eleven. The calls of a row take turns, and so
/// do the rows, for a while each, so that a change of the processor's speed meets all of them. Before a timed call come
/// so many untimed ones of the same: the first after another's takes longer.
fn medians_of<const N: usize, const ROWS: usize>(
    mut rows: [impl FnMut(usize); ROWS],
    untimed: usize,
) -> [[f64; N]; ROWS] {
    let begin = Instant::now();
    let mut times = [const { [const { Vec::new() }; N] }; ROWS];
    while times.iter().any(|row| row[0].len() < 11) || begin.elapsed() < Duration::from_secs(ROWS as u64) {
        for (call, times) in rows.iter_mut().zip(&mut times) {
            let turn = Instant::now();
            while turn.elapsed() < A_WHILE {
                round(call, untimed, times);
            }
        }
    }
    times.map(|row| row.map(median))
}

fn round<const N: usize>(call: &mut impl FnMut(usize), untimed: usize, times: &mut [Vec<Duration>; N]) {
    for (place, times) in times.iter_mut().enumerate() {
        (0..untimed).for_each(|_| call(place));
        let start = Instant::now();
        call(place);
        times.push(start.elapsed());
    }
}

fn median(mut times: Vec<Duration>) -> f64 {
    times.sort();
    times[times.len() / 2].as_secs_f64() * 1e6
}

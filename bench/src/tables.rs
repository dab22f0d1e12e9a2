//! The printed tables: a line for each row as soon as it is measured.

use std::iter::once;

use crate::args::Args;
use crate::rounds::{measure, Spread};
use crate::row::{Restored, Row};

/// The cells of a ratio, empty.
const NO_RATIO: &str = " |  |  |";

/// Ours against the simple implementation and, where a row has it, the best; else its cells are empty.
pub fn ratios<'a>(args: &Args, rows: impl Iterator<Item = &'a Row<'a>>) {
    println!("| call | on | ours / simple | 10 % | 90 % | ours / best | 10 % | 90 % | restored | ours, ns | simple, ns | best, ns |");
    println!("|---|---|---:|---:|---:|---:|---:|---:|---|---:|---:|---:|");
    for row in rows.filter(|row| args.wants(&title(row, row.kib))) {
        let sides: Vec<_> = once(&row.ours).chain(&row.theirs).collect();
        let times = measure(&sides, args.rounds, args.least);
        let over = |side: usize| match times.get(side) {
            Some(theirs) => cells(&times[0], theirs),
            None => NO_RATIO.into(),
        };
        let [ours, simple, best] =
            [0, 1, 2].map(|side| times.get(side).map_or(String::new(), |times| median(times)));
        let (title, restored) = (title(row, row.kib), restored(row.restored));
        println!("{title} {} {} {restored} | {ours} | {simple} | {best} |", over(1), over(2));
    }
}

/// How ours grows with the image. Each line has the same call on images of the three lengths.
pub fn growth<'a>(args: &Args, lines: impl Iterator<Item = [&'a Row<'a>; 3]>) {
    println!("| call | on | 32 KiB / 16 KiB | 10 % | 90 % | 64 KiB / 32 KiB | 10 % | 90 % |");
    println!("|---|---|---:|---:|---:|---:|---:|---:|");
    for rows in lines.filter(|rows| args.wants(&title(rows[0], None))) {
        let times = measure(&rows.map(|row| &row.ours), args.rounds, args.least);
        let over = |size: usize| cells(&times[size], &times[size - 1]);
        println!("{} {} {}", title(rows[0], None), over(1), over(2));
    }
}

fn title(row: &Row, kib: Option<usize>) -> String {
    let size = kib.map_or(String::new(), |kib| format!("{kib} KiB, "));
    format!("| {} | {size}{} |", row.call, row.on)
}

/// The ratio of two contestants' times in each round.
fn cells(times: &[f64], others: &[f64]) -> String {
    let ratios = times.iter().zip(others).map(|(time, other)| time / other);
    let Spread { median, low, high } = Spread::of(ratios);
    format!("{median:.2} | {low:.2} | {high:.2} |")
}

fn median(times: &[f64]) -> String {
    format!("{:.0}", Spread::of(times.iter().copied()).median)
}

fn restored(restored: Restored) -> &'static str {
    match restored {
        Restored::EachTiming => "",
        Restored::InTiming => "timed",
        Restored::EachCall => "untimed",
    }
}

//! The times as tables.

use crate::timing::Row;
use std::time::Duration;

pub fn print(rows: &[Row]) {
    print_by_step(rows);
    print_by_event(rows);
    print_with_reading(rows);
}

pub fn size(piece: usize) -> String {
    match piece {
        65_536 => "64 KiB".into(),
        1 => "1 byte".into(),
        n => format!("{n} bytes"),
    }
}

/// Nanoseconds of each receiver for one of so many.
pub fn each(times: [Duration; 3], count: usize) -> String {
    let cells = times.map(|time| format!("{:.1}", time.as_secs_f64() * 1e9 / count as f64));
    cells.join(" | ")
}

/// What the proved receiver takes, compared with the other two.
fn ratios([proved, plain, unchecked]: [Duration; 3]) -> String {
    let ratio = |other: Duration| proved.as_secs_f64() / other.as_secs_f64();
    format!("{:.2} | {:.2}", ratio(plain), ratio(unchecked))
}

fn print_by_step(rows: &[Row]) {
    println!("Nanoseconds a step, by `step`, the input in memory:\n");
    println!(
        "| pieces of | content | steps | proved | plain, row 9 | plain, no row 9 \
         | proved to row 9 | to no row 9 |"
    );
    println!("|---|---|---|---|---|---|---|---|");
    for row in rows {
        println!(
            "| {} | {} MiB | {} | {} | {} |",
            size(row.piece),
            row.total >> 20,
            row.steps,
            each(row.by_step, row.steps),
            ratios(row.by_step)
        );
    }
}

fn print_by_event(rows: &[Row]) {
    println!("\nNanoseconds an event, and a step that it stands for, by `next_event`, the input in memory:\n");
    println!(
        "| pieces of | events | steps | an event: proved | plain, row 9 | plain, no row 9 \
         | a step: proved | plain, row 9 | plain, no row 9 | proved to row 9 | to no row 9 |"
    );
    println!("|---|---|---|---|---|---|---|---|---|---|---|");
    for row in rows {
        println!(
            "| {} | {} | {} | {} | {} | {} |",
            size(row.piece),
            row.events,
            row.steps,
            each(row.by_event, row.events),
            each(row.by_event, row.steps),
            ratios(row.by_event)
        );
    }
}

fn print_with_reading(rows: &[Row]) {
    println!("\nMilliseconds, the pieces read from a file, by `next_event`:\n");
    println!(
        "| pieces of | content | reads alone | proved | plain, row 9 | plain, no row 9 \
         | proved to row 9 | to no row 9 |"
    );
    println!("|---|---|---|---|---|---|---|---|");
    for row in rows {
        let [receivers @ .., alone] = row.reading;
        let ms = |time: Duration| format!("{:.2}", time.as_secs_f64() * 1e3);
        println!(
            "| {} | {} MiB | {} | {} | {} |",
            size(row.piece),
            row.total >> 20,
            ms(alone),
            receivers.map(ms).join(" | "),
            ratios(receivers)
        );
    }
}

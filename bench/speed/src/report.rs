//! The lines that are printed.

use crate::clock::Best;

/// Above the lines of one comparison.
pub fn heading(what: &str, other: &str) {
    println!("\n{what:<50} {:>12} {other:>15} {:>7}", "verified", "ratio");
}

/// Two times in nanoseconds and their ratio.
pub fn line(what: &str, verified: f64, other: f64) {
    println!(
        "{what:<50} {:>12} {:>15} {:>7.2}",
        time(verified),
        time(other),
        verified / other
    );
}

/// Two times for so many bytes, as millions of bytes a second, and the ratio of the times.
pub fn rate(what: &str, bytes: usize, verified: &Best, other: &Best) {
    let millions = |best: &Best| bytes as f64 * 1000.0 / best.nanoseconds;
    println!(
        "{what:<50} {:>12.0} {:>15.0} {:>7.2}",
        millions(verified),
        millions(other),
        verified.nanoseconds / other.nanoseconds
    );
}

pub fn aim(what: &str, is: &str, met: bool) {
    println!("{what:<50} {is}: {}", if met { "yes" } else { "no" });
}

pub fn time(nanoseconds: f64) -> String {
    if nanoseconds < 10_000.0 {
        format!("{nanoseconds:.0} ns")
    } else {
        format!("{:.1} µs", nanoseconds / 1000.0)
    }
}

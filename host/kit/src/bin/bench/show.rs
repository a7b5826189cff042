//! How numbers are written on the page.

use std::time::Duration;

/// What stands beside a quotient above 1: ours is longer.
const BEHIND: &str = " (behind)";

/// Digits in groups of three.
pub fn grouped(number: u64) -> String {
    let digits = number.to_string();
    let group = |(i, c): (usize, char)| {
        let comma = i > 0 && (digits.len() - i).is_multiple_of(3);
        if comma {
            vec![',', c]
        } else {
            vec![c]
        }
    };
    digits.chars().enumerate().flat_map(group).collect()
}

/// Three digits that count.
pub fn time(duration: Duration) -> String {
    let nanoseconds = duration.as_nanos() as f64;
    let (value, unit) = match nanoseconds {
        n if n < 1e6 => (n / 1e3, "µs"),
        n if n < 1e9 => (n / 1e6, "ms"),
        n => (n / 1e9, "s"),
    };
    let digits = if value < 10.0 { 2 } else { usize::from(value < 100.0) };
    format!("{value:.digits$} {unit}")
}

/// A number of things, by the plural of what they are called.
pub fn count(number: u64, things: &str) -> String {
    match (number, things.strip_suffix('s')) {
        (1, Some(thing)) => format!("1 {thing}"),
        _ => format!("{} {things}", grouped(number)),
    }
}

pub fn quotient(a: Duration, b: Duration) -> Option<f64> {
    (b > Duration::ZERO).then(|| a.as_secs_f64() / b.as_secs_f64())
}

/// None is a dash.
pub fn or_dash<T>(value: Option<T>, shown: impl Fn(T) -> String) -> String {
    value.map_or_else(|| "-".to_string(), shown)
}

pub fn factor(value: Option<f64>) -> String {
    or_dash(value, |f| if f < 0.005 { "below 0.01".to_string() } else { format!("{f:.2}") })
}

/// Whether a quotient of times, as it is shown, is above 1.
pub fn is_behind(ratio: Option<f64>) -> bool {
    ratio.is_some_and(|r| (r * 100.0).round() > 100.0)
}

pub fn marked(ratio: Option<f64>) -> String {
    format!("{}{}", factor(ratio), if is_behind(ratio) { BEHIND } else { "" })
}

pub fn megabytes(bytes: usize) -> String {
    format!("{:.2} MB", bytes as f64 / 1_048_576.0)
}

/// A line of a table.
pub fn row(cells: &[String]) -> String {
    format!("| {} |\n", cells.join(" | "))
}

/// The head of a table.
pub fn head(names: &[&str]) -> String {
    format!("| {} |\n|{}\n", names.join(" | "), "---|".repeat(names.len()))
}

/// The middle of some numbers, the upper of two.
pub fn middle(mut numbers: Vec<f64>) -> Option<f64> {
    numbers.sort_by(f64::total_cmp);
    numbers.get(numbers.len() / 2).copied()
}

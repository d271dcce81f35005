//! Lines of a table, in columns.

use std::time::Duration;

/// Prints the rows in Markdown's form, padded so that they can be read as they
/// are. The first row is the head.
pub fn print(rows: &[Vec<String>]) {
    let width = |column: usize| {
        let cells = rows.iter().map(|row| row[column].chars().count());
        cells.max().unwrap_or(0)
    };
    let widths: Vec<usize> = (0..rows[0].len()).map(width).collect();
    for (at, row) in rows.iter().enumerate() {
        let cells = row.iter().zip(&widths).enumerate();
        let padded = cells.map(|(column, (cell, &width))| match column {
            0 => format!("{cell:width$}"),
            _ => format!("{cell:>width$}"),
        });
        println!("| {} |", padded.collect::<Vec<_>>().join(" | "));
        if at == 0 {
            let rules = widths
                .iter()
                .enumerate()
                .map(|(column, width)| match column {
                    0 => "-".repeat(*width),
                    _ => format!("{}:", "-".repeat(width - 1)),
                });
            println!("| {} |", rules.collect::<Vec<_>>().join(" | "));
        }
    }
}

pub fn row(cells: &[&str]) -> Vec<String> {
    cells.iter().map(|cell| cell.to_string()).collect()
}

/// Three digits and a unit.
pub fn time(time: Duration) -> String {
    let (value, unit) = match time.as_secs_f64() {
        s if s >= 1.0 => (s, "s"),
        s if s >= 1e-3 => (s * 1e3, "ms"),
        s => (s * 1e6, "µs"),
    };
    format!("{} {unit}", three_digits(value))
}

/// How many times the second goes into the first.
pub fn ratio(of: Duration, by: Duration) -> String {
    three_digits(of.as_secs_f64() / by.as_secs_f64())
}

/// A cell for what may be unknown.
pub fn or_none(cell: Option<String>) -> String {
    cell.unwrap_or_else(|| String::from("–"))
}

fn three_digits(value: f64) -> String {
    match value {
        v if v >= 99.95 => format!("{v:.0}"),
        v if v >= 9.995 => format!("{v:.1}"),
        v => format!("{v:.2}"),
    }
}

/// A number with commas between thousands.
pub fn number(value: usize) -> String {
    let digits = value.to_string();
    let mut text = String::new();
    for (at, digit) in digits.chars().enumerate() {
        if at > 0 && (digits.len() - at).is_multiple_of(3) {
            text.push(',');
        }
        text.push(digit);
    }
    text
}

/// A name for a file: words in small letters, with a hyphen between them.
pub fn kebab(name: &str) -> String {
    let letters = name.replace(',', "").to_lowercase();
    letters.split_whitespace().collect::<Vec<_>>().join("-")
}

#[cfg(test)]
mod tests {
    use super::*;

    #[test]
    fn numbers_and_times() {
        assert_eq!(number(7), "7");
        assert_eq!(number(32_768), "32,768");
        assert_eq!(number(1_000_000), "1,000,000");
        assert_eq!(time(Duration::from_nanos(1_234)), "1.23 µs");
        assert_eq!(time(Duration::from_micros(56_780)), "56.8 ms");
        assert_eq!(time(Duration::from_secs(100)), "100 s");
        assert_eq!(
            ratio(Duration::from_secs(3), Duration::from_secs(2)),
            "1.50"
        );
    }

    #[test]
    fn names_of_files() {
        assert_eq!(kebab("D1"), "d1");
        assert_eq!(kebab("chain of 2,046 reads"), "chain-of-2046-reads");
        assert_eq!(kebab("D1, zeroes on both sides"), "d1-zeroes-on-both-sides");
    }
}

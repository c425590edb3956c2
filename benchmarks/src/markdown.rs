//! Tables in Markdown, and how numbers stand in them.

pub fn table(heads: &[&str], rows: &[Vec<String>]) -> String {
    let lines = rows.iter().map(|row| format!("| {} |\n", row.join(" | ")));
    format!(
        "| {} |\n|{}\n{}",
        heads.join(" | "),
        "---|".repeat(heads.len()),
        lines.collect::<String>()
    )
}

/// With a comma before each three digits.
pub fn whole(number: u64) -> String {
    match number {
        0..=999 => number.to_string(),
        _ => format!("{},{:03}", whole(number / 1_000), number % 1_000),
    }
}

pub fn microseconds(time: f64) -> String {
    match time {
        ..0.995 => format!("{time:.2} µs"),
        ..9.95 => format!("{time:.1} µs"),
        _ => format!("{} µs", whole(time.round() as u64)),
    }
}

/// With as many digits as a time's noise leaves.
pub fn ratio(value: f64) -> String {
    let places = match value {
        ..2.0 => 2,
        ..10.0 => 1,
        _ => 0,
    };
    format!("{value:.places$}")
}

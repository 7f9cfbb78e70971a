//! Markdown tables.

pub fn head(title: &str, columns: &[&str]) {
    println!("\n## {title}\n\n| {} |\n|{}", columns.join(" | "), "---|".repeat(columns.len()));
}

pub fn row(cells: &[String]) {
    println!("| {} |", cells.join(" | "));
}

pub fn micros(seconds: f64) -> String {
    match seconds * 1e6 {
        us if us < 10.0 => format!("{us:.2}"),
        us if us < 100.0 => format!("{us:.1}"),
        us => thousands(us),
    }
}

pub fn ratio(number: f64) -> String {
    match number {
        number if number < 10.0 => format!("{number:.2}"),
        number => thousands(number),
    }
}

/// How many times as much as before, where there is a before.
pub fn grown(now: f64, before: Option<f64>) -> String {
    before.map_or(String::new(), |before| ratio(now / before))
}

pub fn thousands(number: f64) -> String {
    let digits = format!("{number:.0}");
    let groups: Vec<_> = digits.as_bytes().rchunks(3).rev().map(|group| std::str::from_utf8(group).unwrap()).collect();
    groups.join(",")
}

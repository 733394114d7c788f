//! Figures as cells of a table.

/// A whole number with a comma at each thousand.
pub fn grouped(number: u64) -> String {
    match number / 1000 {
        0 => number.to_string(),
        thousands => format!("{},{:03}", grouped(thousands), number % 1000),
    }
}

pub fn decimal(number: f64, places: usize) -> String {
    format!("{number:.places$}")
}

/// A dash where there is no figure.
pub fn or_dash<T>(figure: Option<T>, cell: impl Fn(T) -> String) -> String {
    figure.map_or("–".into(), cell)
}

//! The tables of docs/BENCHMARKS.md, written as the page has them. A cell is empty where there is no number.

/// The line of titles and the one below it.
pub fn heading<const N: usize>(titles: [&str; N]) {
    line(&titles.map(str::to_string));
    println!("|{}", "---|".repeat(N));
}

pub fn line(cells: &[String]) {
    println!("| {} |", cells.join(" | "));
}

/// A time over another one, if both are there.
pub fn over(time: Option<f64>, other: Option<f64>) -> Option<f64> {
    Some(time? / other?)
}

/// A ratio with two places.
pub fn ratio(ratio: Option<f64>) -> String {
    ratio.map_or(String::new(), |ratio| format!("{ratio:.2}"))
}

/// The times, and behind them the first one over each other one.
pub fn compared(times: &[Option<f64>], places: usize) -> Vec<String> {
    let ratios = times[1..].iter().map(|&other| ratio(over(times[0], other)));
    times.iter().map(|&time| number(time, places)).chain(ratios).collect()
}

/// A number with so many places, in groups of three digits.
pub fn number(number: Option<f64>, places: usize) -> String {
    let Some(number) = number else { return String::new() };
    let digits = format!("{number:.places$}");
    let whole = digits.find('.').unwrap_or(digits.len());
    let comma = |place: usize| if place > 0 && place < whole && (whole - place).is_multiple_of(3) { "," } else { "" };
    digits.char_indices().map(|(place, digit)| format!("{}{digit}", comma(place))).collect()
}

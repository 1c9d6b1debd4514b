//! The filled sheet as text. All that stood in the given one is copied from it.

use crate::second::split::Split;

/// The sheet with these maps behind the given ones, before the procedures, and each step naming its own.
pub fn with_posts(sheet: &[u8], split: &Split, posts: &[Vec<i128>]) -> Vec<u8> {
    let sheet = std::str::from_utf8(sheet).expect("a sheet that was read is ASCII");
    let (head, rest) = sheet.split_once('\n').expect("a sheet that was read has a head");
    let mut lines = vec![with_field(head, 4, split.maps + posts.len())];
    let given: Vec<&str> = rest.lines().collect();
    let (given, behind) = given.split_at(split.types.len() + split.maps);
    let (signatures, rows) = behind.split_at(split.signatures.len());
    lines.extend(given.iter().copied().map(String::from));
    for post in posts {
        let numerals: Vec<String> = post.iter().map(i128::to_string).collect();
        lines.push(numerals.join(","));
    }
    lines.extend(signatures.iter().copied().map(String::from));
    lines.extend(rows.iter().enumerate().map(|(step, row)| with_field(row, 1, split.maps + step)));
    (lines.join("\n") + "\n").into_bytes()
}

/// A line with a number in one of its fields.
fn with_field(line: &str, field: usize, number: usize) -> String {
    let mut fields: Vec<&str> = line.split(',').collect();
    let numeral = number.to_string();
    fields[field] = &numeral;
    fields.join(",")
}

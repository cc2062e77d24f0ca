//! The form of document 01's replay listing: eight columns of 11 in, six of 11 out.

pub const COLUMN: usize = 11;
pub const INPUT_COLUMNS: usize = 8;
pub const OUTPUT_COLUMNS: usize = 6;

/// The eight numbers of an input line (without its line feed), or none where the line is malformed.
pub fn parse_line(line: &[u8]) -> Option<[u64; INPUT_COLUMNS]> {
    if line.len() != COLUMN * INPUT_COLUMNS {
        return None;
    }
    let mut numbers = [0; INPUT_COLUMNS];
    for (number, column) in numbers.iter_mut().zip(line.chunks(COLUMN)) {
        *number = parse_column(column)?;
    }
    Some(numbers)
}

/// Spaces, then one or more digits up to the right edge.
fn parse_column(column: &[u8]) -> Option<u64> {
    let digits = without_leading_spaces(column);
    if digits.is_empty() || !digits.iter().all(u8::is_ascii_digit) {
        return None;
    }
    Some(
        digits
            .iter()
            .fold(0, |number, digit| number * 10 + u64::from(digit - b'0')),
    )
}

/// Only the space is a blank here; a tab is malformed.
fn without_leading_spaces(column: &[u8]) -> &[u8] {
    let start = column.iter().position(|&byte| byte != b' ');
    &column[start.unwrap_or(column.len())..]
}

/// A line of right-justified columns. A number of more than 11 digits widens its column.
pub fn format_line(numbers: &[u64]) -> String {
    numbers
        .iter()
        .map(|number| format!("{number:>width$}", width = COLUMN))
        .collect()
}

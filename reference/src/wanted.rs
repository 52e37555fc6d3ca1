//! A list of wanted corrections: a number on each line, 0 for a line that is
//! none, and a 0 that ends a list of more than 200 lines.

const MOST_LINES: usize = 200;

pub fn numbers(text: &[u8]) -> Vec<u32> {
    let mut lines = text.split_inclusive(|byte| *byte == b'\n');
    let mut numbers: Vec<u32> = lines.by_ref().take(MOST_LINES).map(number).collect();
    if lines.next().is_some() {
        numbers.push(0);
    }
    numbers
}

/// One to three digits and a line feed.
fn number(line: &[u8]) -> u32 {
    match line.split_last() {
        Some((b'\n', digits)) if (1..=3).contains(&digits.len()) && digits.iter().all(u8::is_ascii_digit) => {
            digits.iter().fold(0, |number, digit| number * 10 + u32::from(digit - b'0'))
        }
        _ => 0,
    }
}

//! Counts as they are printed.

/// 31204 as 31,204.
pub fn commas(count: usize) -> String {
    let digits = count.to_string();
    let mut text = String::new();
    for (i, digit) in digits.chars().enumerate() {
        if i > 0 && (digits.len() - i) % 3 == 0 {
            text.push(',');
        }
        text.push(digit);
    }
    text
}

/// A part of a whole in percent with one decimal.
pub fn share(part: usize, whole: usize) -> String {
    let tenths = if whole == 0 { 0 } else { (part * 1000 + whole / 2) / whole };
    format!("{}.{}%", tenths / 10, tenths % 10)
}

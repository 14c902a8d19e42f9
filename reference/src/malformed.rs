//! Every way in which a line can fail to be five numbers, and a first line fail to be sizes.

use crate::random::Random;

/// What is wrong with a line, for the statistics and for choosing evenly.
pub const KINDS: &[&str] = &[
    "empty line",
    "leading space",
    "trailing space",
    "two spaces",
    "only spaces",
    "tab",
    "carriage return",
    "four numbers",
    "number left out",
    "six numbers",
    "one number",
    "letter",
    "letters instead",
    "minus",
    "plus",
    "point",
    "comma",
    "hexadecimal",
    "4294967296",
    "value over 32 bits",
    "value over 64 bits",
    "zero byte",
    "byte over 127",
];

/// A line of five numbers spoilt in the way that KINDS names at this place.
pub fn spoil(random: &mut Random, good: &str, kind: usize) -> Vec<u8> {
    let words: Vec<&str> = good.split(' ').collect();
    let at = random.below(5);
    let with = |word: String| {
        let mut changed: Vec<String> = words.iter().map(|word| word.to_string()).collect();
        changed[at] = word;
        changed.join(" ")
    };
    let gap = random.between(1, 4);
    let split_by = |between: &str| format!("{}{}{}", words[..gap].join(" "), between, words[gap..].join(" "));
    let line = match KINDS[kind] {
        "empty line" => String::new(),
        "leading space" => format!(" {good}"),
        "trailing space" => format!("{good} "),
        "two spaces" => split_by("  "),
        "only spaces" => " ".repeat(random.between(1, 5)),
        "tab" => split_by("\t"),
        "carriage return" => format!("{good}\r"),
        "four numbers" => words[..4].join(" "),
        "number left out" => with(String::new()),
        "six numbers" => format!("{good} 0"),
        "one number" => words[0].to_string(),
        "letter" => with(format!("{}{}", words[at], random.pick(&["x", "a", "O", "e1", "u"]))),
        "letters instead" => random.pick(&["start", "end", "sizes", "line 2", "# note"]).to_string(),
        "minus" => with(format!("-{}", words[at])),
        "plus" => with(format!("+{}", words[at])),
        "point" => with(format!("{}.0", words[at])),
        "comma" => words.join(","),
        "hexadecimal" => with(format!("0x{}", words[at])),
        "4294967296" => with("4294967296".to_string()),
        "value over 32 bits" => with(random.pick(&["4294967297", "4294967306", "9999999999", "8589934592", "0004294967296"]).to_string()),
        "value over 64 bits" => with(random.pick(&["18446744073709551616", "18446744073709551617", "99999999999999999999999"]).to_string()),
        "zero byte" => with(format!("{}\0", words[at])),
        // Latin-1 and broken UTF-8 alike: the byte alone is written below.
        _ => {
            let mut bytes = good.as_bytes().to_vec();
            let place = random.below(bytes.len());
            bytes[place] = random.pick(&[0x80, 0xb2, 0xc3, 0xff]);
            return bytes;
        }
    };
    line.into_bytes()
}

/// Sizes out of the program's range: which of T, V, D, P and N, and its value. Some are in the range of 01.
pub const OUT_OF_RANGE: &[(usize, &str)] = &[
    (0, "0"),
    (0, "17"),
    (0, "4294967295"),
    (1, "0"),
    (1, "33"),
    (2, "0"),
    (2, "9"),
    (3, "0"),
    (3, "33"),
    (3, "1024"),
    (3, "1025"),
    (4, "1025"),
    (4, "4096"),
    (4, "4097"),
];

/// A first line with one size out of range, the one that OUT_OF_RANGE has at this place.
pub fn sizes_out_of_range(random: &mut Random, place: usize) -> String {
    let good = [random.between(1, 16), random.between(1, 32), random.between(1, 8), random.between(1, 32), random.between(0, 1024)];
    let mut words: Vec<String> = good.iter().map(|size| size.to_string()).collect();
    let (size, value) = OUT_OF_RANGE[place];
    words[size] = value.to_string();
    words.join(" ")
}

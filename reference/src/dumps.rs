//! `dumps REFERENCE COUNT SEED PROGRAM [ARGUMENT..]`: gives COUNT generated scripts to the reference, which is asked for its dump, and to a
//! program that prints one, and compares the lent words (02, W3 and W6). At a difference the script is printed shortened, with the first word that
//! differs, and the exit status is 1.

use epochs::counted::commas;
use epochs::lines::{commands, number, sizes};
use epochs::pair::{by_command_line, lines, shortened, visible, Pair};
use epochs::scripts::dump_script;

fn main() {
    let (pair, count, seed) = by_command_line("dumps REFERENCE COUNT SEED PROGRAM [ARGUMENT..]", &["--dump"]);
    let same = compare(&pair, count, seed);
    pair.remove();
    std::process::exit(if same { 0 } else { 1 });
}

fn compare(pair: &Pair, count: u64, seed: u64) -> bool {
    let (mut obeyed, mut words) = (0, 0);
    for seed in seed..seed + count {
        let text = dump_script(seed).text;
        let dump = pair.run(&pair.reference, &text);
        if dump != pair.run(&pair.program, &text) {
            let short = shortened(pair, &text);
            println!("seed {seed}: different dumps; {} lines, shortened to {}:", lines(&text).len(), lines(&short).len());
            print!("{}", visible(&short));
            tell(&pair.run(&pair.reference, &short), &pair.run(&pair.program, &short));
            return false;
        }
        obeyed += commands(&text, sizes).len();
        words += dump.split(|&byte| byte == b'\n').filter_map(head).map(|(_, length)| length).sum::<usize>();
    }
    println!("{} scripts, {} commands, {} words, same dumps", commas(count as usize), commas(obeyed), commas(words));
    true
}

/// The line that a slice begins with: its name and its length.
fn head(line: &[u8]) -> Option<(&str, usize)> {
    if !line.first()?.is_ascii_lowercase() {
        return None;
    }
    let (name, length) = std::str::from_utf8(line).ok()?.split_once(' ')?;
    ["cells", "remember", "tables", "chains"].contains(&name).then_some((name, number(length.as_bytes())? as usize))
}

/// The slices of a dump with their words; `None` if the text is no dump, as `sizes` and `line k` are none.
fn slices(text: &[u8]) -> Option<Vec<(&str, usize, Vec<u32>)>> {
    let mut slices: Vec<(&str, usize, Vec<u32>)> = Vec::new();
    for line in text.strip_suffix(b"\n")?.split(|&byte| byte == b'\n') {
        if let Some((name, length)) = head(line) {
            slices.push((name, length, Vec::new()));
            continue;
        }
        let words = &mut slices.last_mut()?.2;
        for word in line.split(|&byte| byte == b' ') {
            words.push(number(word)?);
        }
    }
    Some(slices)
}

/// The first word that differs. Both texts, where one is no dump or they differ otherwise.
fn tell(reference: &[u8], program: &[u8]) {
    for ((name, length, ours), (other, other_length, theirs)) in slices(reference).iter().flatten().zip(slices(program).iter().flatten()) {
        if (name, length) != (other, other_length) {
            return println!("-- the reference has {name} {length}, the program {other} {other_length}");
        }
        if let Some(at) = (0..ours.len().min(theirs.len())).find(|&at| ours[at] != theirs[at]) {
            return println!("-- {name}, word {at}: the reference has {}, the program {}", ours[at], theirs[at]);
        }
    }
    println!("-- the reference prints:");
    print!("{}", visible(reference));
    println!("-- the program prints:");
    print!("{}", visible(program));
}

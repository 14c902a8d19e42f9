//! `compare REFERENCE COUNT SEED PROGRAM [ARGUMENT..]`: gives COUNT generated scripts to both programs and compares what they print,
//! byte for byte. At a difference the script is printed shortened, with both outputs, and the exit status is 1.

use epochs::counted::commas;
use epochs::lines::{commands, program_sizes};
use epochs::pair::{by_command_line, lines, shortened, visible, Pair};
use epochs::scripts::script;

fn main() {
    let (pair, count, seed) = by_command_line("compare REFERENCE COUNT SEED PROGRAM [ARGUMENT..]", &[]);
    let same = compare(&pair, count, seed);
    pair.remove();
    std::process::exit(if same { 0 } else { 1 });
}

fn compare(pair: &Pair, count: u64, seed: u64) -> bool {
    let mut answered = 0;
    for seed in seed..seed + count {
        let text = script(seed).text;
        if pair.run(&pair.reference, &text) != pair.run(&pair.program, &text) {
            let short = shortened(pair, &text);
            println!("seed {seed}: different output; {} lines, shortened to {}:", lines(&text).len(), lines(&short).len());
            print!("{}", visible(&short));
            println!("-- the reference prints:");
            print!("{}", visible(&pair.run(&pair.reference, &short)));
            println!("-- the program prints:");
            print!("{}", visible(&pair.run(&pair.program, &short)));
            return false;
        }
        answered += commands(&text, program_sizes).len();
    }
    println!("{} scripts, {} commands, same output", commas(count as usize), commas(answered));
    true
}

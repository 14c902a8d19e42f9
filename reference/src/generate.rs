//! `generate SEED` prints the script of a seed, `generate --dump SEED` the one that is to end in a dump, `generate --long COMMANDS SEED` a
//! long one on small tables; `generate --statistics COUNT SEED` says what COUNT scripts from SEED on reach.

use epochs::scripts::{dump_script, long, script};
use epochs::statistics::Statistics;
use std::io::Write;

fn main() {
    let arguments: Vec<String> = std::env::args().skip(1).collect();
    let words: Vec<&str> = arguments.iter().map(String::as_str).collect();
    match words[..] {
        ["--statistics", count, seed] => {
            let (count, seed) = (whole(count), whole(seed));
            let mut statistics = Statistics::default();
            for i in 0..count {
                statistics.script(&script(seed + i));
            }
            statistics.print();
        }
        ["--long", commands, seed] => print(&long(whole(seed), whole(commands) as usize)),
        ["--dump", seed] => print(&dump_script(whole(seed)).text),
        [seed] => print(&script(whole(seed)).text),
        _ => {
            eprintln!("usage: generate SEED | generate --dump SEED | generate --long COMMANDS SEED | generate --statistics COUNT SEED");
            std::process::exit(2);
        }
    }
}

fn print(text: &[u8]) {
    std::io::stdout().write_all(text).expect("the script could not be written");
}

fn whole(text: &str) -> u64 {
    text.parse().unwrap_or_else(|_| {
        eprintln!("not a number: {text}");
        std::process::exit(2);
    })
}

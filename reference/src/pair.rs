//! Two programs that are given the same scripts, and a script made shorter while they differ on it.

use std::fs::{self, File};
use std::path::PathBuf;
use std::process::{Command, Stdio};
use std::time::{Duration, Instant};

/// A program that takes longer for one script is stopped, which counts as a difference.
const LIMIT: Duration = Duration::from_secs(60);

/// So many shorter scripts are tried at most.
const ATTEMPTS: usize = 4000;

/// Each is a command with its arguments.
pub struct Pair {
    pub reference: Vec<String>,
    pub program: Vec<String>,
    folder: PathBuf,
}

/// By a command line `REFERENCE COUNT SEED PROGRAM [ARGUMENT..]`: the two programs, the reference with these arguments of its own, and
/// COUNT and SEED. Their scripts stand in a folder until `remove`.
pub fn by_command_line(usage: &str, own: &[&str]) -> (Pair, u64, u64) {
    let arguments: Vec<String> = std::env::args().skip(1).collect();
    let numbers = (arguments.get(1).and_then(|word| word.parse().ok()), arguments.get(2).and_then(|word| word.parse().ok()));
    let ((Some(count), Some(seed)), true) = (numbers, arguments.len() >= 4) else {
        eprintln!("usage: {usage}");
        std::process::exit(2);
    };
    let folder = std::env::temp_dir().join(format!("compare-{}", std::process::id()));
    fs::create_dir_all(&folder).expect("there is no place for the scripts");
    let mut reference = arguments[..1].to_vec();
    reference.extend(own.iter().map(|word| word.to_string()));
    (Pair { reference, program: arguments[3..].to_vec(), folder }, count, seed)
}

impl Pair {
    pub fn remove(&self) {
        let _ = fs::remove_dir_all(&self.folder);
    }

    fn differ(&self, text: &[u8]) -> bool {
        self.run(&self.reference, text) != self.run(&self.program, text)
    }

    /// What the command prints for this input. A note is added if it was stopped or ended by a signal.
    pub fn run(&self, command: &[String], text: &[u8]) -> Vec<u8> {
        let (input, output) = (self.folder.join("input"), self.folder.join("output"));
        fs::write(&input, text).expect("the script could not be written");
        let mut child = Command::new(&command[0])
            .args(&command[1..])
            .stdin(File::open(&input).expect("the script could not be read"))
            .stdout(File::create(&output).expect("there is no place for the output"))
            .stderr(Stdio::null())
            .spawn()
            .unwrap_or_else(|error| {
                eprintln!("{}: {error}", command[0]);
                std::process::exit(2);
            });
        let started = Instant::now();
        let mut pause = Duration::from_micros(200);
        let note = loop {
            if let Some(status) = child.try_wait().expect("the program cannot be waited for") {
                break if status.code().is_some() { "" } else { "(ended by a signal)\n" };
            }
            if started.elapsed() > LIMIT {
                let _ = child.kill();
                let _ = child.wait();
                break "(stopped: too slow)\n";
            }
            std::thread::sleep(pause);
            pause = (pause * 2).min(Duration::from_millis(5));
        };
        let mut printed = fs::read(&output).expect("the output could not be read");
        printed.extend(note.bytes());
        printed
    }
}

/// The lines with their line feeds.
pub fn lines(text: &[u8]) -> Vec<&[u8]> {
    text.split_inclusive(|&byte| byte == b'\n').collect()
}

/// Deletes lines, many at once and then single ones, while the difference remains.
pub fn shortened(pair: &Pair, text: &[u8]) -> Vec<u8> {
    let mut kept: Vec<&[u8]> = lines(text);
    let mut attempts = 0;
    let mut size = kept.len() / 2;
    while size > 0 {
        let mut at = 0;
        let mut deleted = false;
        while at < kept.len() && attempts < ATTEMPTS {
            let mut fewer = kept.clone();
            fewer.drain(at..(at + size).min(kept.len()));
            attempts += 1;
            if pair.differ(&fewer.concat()) {
                kept = fewer;
                deleted = true;
            } else {
                at += size;
            }
        }
        // Single lines are tried until none can go.
        size = if size == 1 && deleted && attempts < ATTEMPTS { 1 } else { size / 2 };
    }
    kept.concat()
}

/// The text with every byte to be seen: other than printable characters and line feeds as \xNN, and a missing last line feed noted.
pub fn visible(text: &[u8]) -> String {
    let mut shown = String::new();
    for (i, &byte) in text.iter().enumerate() {
        let ends_line = text.get(i + 1).is_none_or(|&next| next == b'\n');
        match byte {
            b'\n' => shown.push('\n'),
            b' ' if ends_line => shown.push_str("\\x20"),
            b' '..=b'~' => shown.push(byte as char),
            _ => shown.push_str(&format!("\\x{byte:02x}")),
        }
    }
    if text.last().is_some_and(|&byte| byte != b'\n') {
        shown.push_str("(no line feed)\n");
    }
    shown
}

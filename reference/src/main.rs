//! The second program: document 01's section "The program", with the last line of 02's W2, over an object graph. With `--dump` it prints
//! the lent words after the script instead (02, W3 and W6), and takes all sizes of 01.

use epochs::heap::Heap;
use epochs::lines::{five_numbers, program_sizes, sizes};
use epochs::words::Words;
use std::io::{self, BufRead, BufWriter, Write};

/// Reads the next line, without its line feed; false at the end of the input. The last line feed may be missing.
fn next_line(input: &mut impl BufRead, line: &mut Vec<u8>) -> io::Result<bool> {
    line.clear();
    if input.read_until(b'\n', line)? == 0 {
        return Ok(false);
    }
    if line.last() == Some(&b'\n') {
        line.pop();
    }
    Ok(true)
}

fn run(mut input: impl BufRead, mut output: impl Write, dump: bool) -> io::Result<()> {
    let mut line = Vec::new();
    let first = if dump { sizes } else { program_sizes };
    let limits = if next_line(&mut input, &mut line)? { first(&line) } else { None };
    let Some(limits) = limits else {
        writeln!(output, "sizes")?;
        return output.flush();
    };
    let mut heap = Heap::new(limits);
    let mut place: u64 = 1;
    while next_line(&mut input, &mut line)? {
        place += 1;
        let Some(words) = five_numbers(&line) else {
            writeln!(output, "line {place}")?;
            return output.flush();
        };
        match heap.obey(words) {
            _ if dump => {}
            Ok(value) => writeln!(output, "0 {value}")?,
            Err(number) => writeln!(output, "{number} 0")?,
        }
    }
    if dump {
        Words::of(&heap).print(&mut output)?;
    } else {
        report(&heap, &mut output)?;
    }
    output.flush()
}

fn report(heap: &Heap, output: &mut impl Write) -> io::Result<()> {
    for row in heap.report() {
        writeln!(output, "{} {} {} {}", row.thread, row.level, row.objects, row.pages)?;
    }
    writeln!(output, "{} {}", heap.free_pages(), heap.crossing_slots())?;
    writeln!(output, "{} {} {}", heap.made(), heap.freed(), heap.total())
}

fn main() {
    let arguments: Vec<String> = std::env::args().skip(1).collect();
    let dump = !arguments.is_empty();
    if dump && arguments != ["--dump"] {
        eprintln!("usage: reference [--dump] < SCRIPT");
        std::process::exit(2);
    }
    if let Err(error) = run(io::stdin().lock(), BufWriter::new(io::stdout().lock()), dump) {
        eprintln!("{error}");
        std::process::exit(1);
    }
}

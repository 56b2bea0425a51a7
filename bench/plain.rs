// The least that any program of this protocol does: reads the lines, splits them into numbers, and writes and
// flushes for each the one reply that it was given as its word. It keeps no tap and prices nothing.
use std::env;
use std::hint::black_box;
use std::io::{self, BufRead, BufReader, BufWriter, Write};

fn main() -> io::Result<()> {
    let mut input = BufReader::new(io::stdin().lock());
    let mut output = BufWriter::new(io::stdout().lock());
    let mut line = String::new();
    let reply = env::args().nth(1).unwrap_or_default() + "\n";
    while input.read_line(&mut line)? > 0 {
        for word in line.trim_end_matches('\n').split(' ') {
            black_box(word.parse::<u64>().ok());
        }
        output.write_all(reply.as_bytes())?;
        output.flush()?;
        line.clear();
    }
    Ok(())
}

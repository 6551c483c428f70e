//! `parkline` by the peer: event lines on standard input, answer lines on standard output.

use std::io::{stdin, stdout, BufReader, BufWriter};

fn main() -> std::io::Result<()> {
    const BUFFER: usize = 1 << 16;
    let input = BufReader::with_capacity(BUFFER, stdin().lock());
    let output = BufWriter::with_capacity(BUFFER, stdout().lock());
    peer::session(input, output)
}

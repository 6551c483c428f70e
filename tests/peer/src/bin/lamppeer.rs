//! `lampline` by the peer: event lines, replies and questions on standard input, what they give on standard output.

use std::io::{stdin, stdout, BufWriter};

fn main() -> std::io::Result<()> {
    peer::lamp_session(stdin().lock(), BufWriter::with_capacity(1 << 16, stdout().lock()))
}

//! `phoneline` by the peer: events of the two phones on standard input, their answers on standard output.

use std::io::{stdin, stdout, BufWriter};

fn main() -> std::io::Result<()> {
    peer::phone_session(stdin().lock(), BufWriter::with_capacity(1 << 16, stdout().lock()))
}

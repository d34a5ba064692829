//! Runs the script on standard input and prints to standard output.

use std::io::{self, Read, Write};

use model::engine::Engine;
use model::script::{self, MAX_INPUT};

fn main() -> io::Result<()> {
    let mut input = Vec::new();
    io::stdin().lock().take(MAX_INPUT as u64 + 1).read_to_end(&mut input)?;
    let mut out = io::BufWriter::new(io::stdout().lock());
    if input.len() > MAX_INPUT {
        writeln!(out, "too long")?;
    } else {
        script::run(Engine::Model, &input, &mut out)?;
    }
    out.flush()
}

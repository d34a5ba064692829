//! The bytes that one transaction over two files writes: here and in SQLite.

use std::process::Command;

use crate::call::{Call, Function};
use crate::place::small;
use crate::side::Side;
use crate::stage::{self, Stage, BUDGET};

/// Measures SQLite, and prints a line for each setting: name, bytes.
const SCRIPT: &str = include_str!("../sqlite.py");

pub fn print() {
    println!("\n5. BYTES WRITTEN: a transaction that changes 256 bytes in each of two files\n");
    let stores = stores();
    let sum: u64 = stores.iter().sum();
    let parts: Vec<String> = stores.iter().map(u64::to_string).collect();
    println!("{:56}{:>9}", format!("here, {} = {sum} stores of 256 bytes", parts.join(" + ")), 256 * sum);
    match Command::new("python3").args(["-c", SCRIPT]).output() {
        Ok(output) if output.status.success() => print!("{}", String::from_utf8_lossy(&output.stdout)),
        Ok(output) => println!("SQLite: not measured: {}", String::from_utf8_lossy(&output.stderr)),
        Err(error) => println!("SQLite: not measured: python3: {error}"),
    }
}

/// The stores of begin, two opens, two writes and commit, by the replies of
/// the library.
fn stores() -> Vec<u64> {
    let place = small();
    let mut stage = Stage::junk(place.sectors);
    let mut made = |call: &dyn Fn(&Stage) -> Call| {
        let reply = Side::Library.make(&call(&stage), &mut stage.volume, &mut []);
        assert!(reply.kind() == 0, "a call of the transaction is not done: {reply:?}");
        stage.session = reply.session();
        reply.number()
    };
    made(&|_| stage::format(place.clients, &place.shape));
    vec![
        made(&|stage| stage.call(Function::Begin, &[1, BUDGET])),
        made(&|stage| stage.call(Function::Open, &[1, 1, BUDGET])),
        made(&|stage| stage.call(Function::Open, &[1, 2, BUDGET])),
        made(&|stage| stage::write(stage.session, 1, 1, 0)),
        made(&|stage| stage::write(stage.session, 1, 2, 0)),
        made(&|stage| stage.call(Function::Commit, &[1, BUDGET])),
    ]
}

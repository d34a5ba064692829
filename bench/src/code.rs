//! Bytes of code: the library's archive next to the Rust code compiled to one
//! object, each without what it calls of the C library and of Rust's own.

use std::env;
use std::process::Command;

pub fn print() {
    println!("\n4. CODE: bytes of machine code and of constants\n");
    match (env::var("CAPI_DIR"), env::var("RUST_OBJECT")) {
        (Ok(directory), Ok(object)) => print_both(&format!("{directory}/libcapi.a"), &object),
        _ => println!("not measured: CAPI_DIR and RUST_OBJECT name the two (bench/run sets them)"),
    }
}

fn print_both(library: &str, rust: &str) {
    let (Some(library), Some(rust)) = (Code::of(library, "vol_"), Code::of(rust, "rust_side::")) else {
        println!("not measured: nm and size are needed");
        return;
    };
    println!("{:26}{:>9}{:>9}", "", "library", "Rust");
    for (name, bytes) in &library.calls {
        let in_rust = rust.calls.iter().find(|(other, _)| other == name).map_or("-".into(), |(_, n)| n.to_string());
        println!("{name:26}{bytes:9}{in_rust:>9}");
    }
    println!("{:26}{:9}{:9}", "shared by calls", library.shared, rust.shared);
    println!("{:26}{:9}{:9}", "all code", library.text, rust.text);
    println!("{:26}{:9}{:9}", "constants", library.constants, rust.constants);
}

/// The code in one object.
struct Code {
    /// The exported calls by name.
    calls: Vec<(String, u64)>,
    /// The functions that aren't exported.
    shared: u64,
    text: u64,
    constants: u64,
}

impl Code {
    /// `before` stands before the name of each exported call.
    fn of(object: &str, before: &str) -> Option<Code> {
        let symbols = output("nm", &["--demangle", "--print-size", "--defined-only", object])?;
        let sections = output("size", &["-A", object])?;
        let mut code = Code { calls: Vec::new(), shared: 0, text: 0, constants: 0 };
        symbols.lines().filter_map(symbol).for_each(|(name, bytes)| code.add_symbol(name, bytes, before));
        sections.lines().filter_map(section).for_each(|(name, bytes)| code.add_section(name, bytes));
        code.calls.sort();
        Some(code)
    }

    fn add_symbol(&mut self, name: &str, bytes: u64, before: &str) {
        match name.split_once(before) {
            Some((_, call)) if !call.contains(':') => self.calls.push((call.into(), bytes)),
            _ => self.shared += bytes,
        }
    }

    fn add_section(&mut self, name: &str, bytes: u64) {
        if name.starts_with(".text") {
            self.text += bytes;
        } else if name.starts_with(".rodata") || name.starts_with(".data.rel.ro") {
            self.constants += bytes;
        }
    }
}

/// Name and bytes of a function, from a line of `nm`: place, bytes, kind, name.
fn symbol(line: &str) -> Option<(&str, u64)> {
    let mut words = line.splitn(4, ' ');
    let (_, bytes, kind) = (words.next()?, words.next()?, words.next()?);
    let name = words.next()?;
    matches!(kind, "t" | "T").then_some(())?;
    Some((name, u64::from_str_radix(bytes, 16).ok()?))
}

/// Name and bytes of a section, from a line of `size`.
fn section(line: &str) -> Option<(&str, u64)> {
    let mut words = line.split_whitespace();
    Some((words.next()?, words.next()?.parse().ok()?))
}

fn output(program: &str, arguments: &[&str]) -> Option<String> {
    let output = Command::new(program).args(arguments).output().ok()?;
    output.status.success().then(|| String::from_utf8_lossy(&output.stdout).into_owned())
}

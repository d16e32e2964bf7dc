//! Bytes of code, and of stack by call.

use std::process::Command;

use capi::benchmark::plain_c::PlainC;
use capi::benchmark::plain_rust::PlainRust;
use capi::footprint::{depths, is_in_c, KINDS};
use capi::library::Proved;

fn main() {
    println!("{:<33}{:>9}{:>9}{:>9}", "bytes", "proved", "Rust", "C");
    let code = [env!("PROVED_ARCHIVE"), env!("C_ARCHIVE")].map(code_bytes);
    println!(
        "{:<33}{:>9}{:>9}{:>9}",
        "code and constants", code[0], "-", code[1]
    );
    let (proved, rust, c) = (depths(&Proved), depths(&PlainRust), depths(&PlainC));
    for (kind, name) in KINDS.iter().enumerate() {
        let what = format!("stack of {name}");
        let c = if is_in_c(kind) {
            c[kind].to_string()
        } else {
            "-".into()
        };
        println!("{what:<33}{:>9}{:>9}{c:>9}", proved[kind], rust[kind]);
    }
}

/// The first column of `size`, for all files of an archive together.
fn code_bytes(archive: &str) -> u64 {
    let said = Command::new("size").arg(archive).output();
    let said = String::from_utf8(said.expect("size is there").stdout).expect("plain text");
    let bytes = |line: &str| line.split_whitespace().next()?.parse::<u64>().ok();
    said.lines()
        .skip(1)
        .map(|line| bytes(line).expect("a number"))
        .sum()
}

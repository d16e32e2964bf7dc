//! Links the proved library, which `rt lib` in crates/capi has written or tests/aligned_library, and the plain C of c/, which is compiled
//! here.

use std::env;
use std::path::Path;
use std::process::Command;

/// Folder of this package.
const HERE: &str = env!("CARGO_MANIFEST_DIR");

/// For the same processor as the other sides.
const FLAGS: &str = "-std=c99 -O2 -march=x86-64-v2 -fPIE -Wall -Wextra -Wpedantic -Werror -c";

/// As aligned.toml has it for the Rust side; gcc's assembler knows these words.
const ALIGNED_FLAGS: &str = "-falign-functions=64 -Wa,-malign-branch-boundary=32 \
                             -Wa,-malign-branch=fused+jcc+jmp+call+ret+indirect";

fn main() {
    let is_aligned = env::var_os("CARGO_FEATURE_ALIGNED").is_some();
    let proved = if is_aligned {
        format!("{HERE}/target/aligned")
    } else {
        format!("{HERE}/../../crates/capi/out")
    };
    check_rust_flags(is_aligned);
    println!("cargo::rustc-link-search=native={proved}");
    println!("cargo::rustc-link-lib=static=capi");
    println!("cargo::rerun-if-changed={proved}/libcapi.a");
    println!("cargo::rustc-env=PROVED_ARCHIVE={proved}/libcapi.a");
    let out = env::var("OUT_DIR").expect("cargo gives it");
    let more_flags = if is_aligned { ALIGNED_FLAGS } else { "" };
    compile_plain_c(Path::new(&out), more_flags);
    println!("cargo::rustc-link-search=native={out}");
    println!("cargo::rustc-link-lib=static=plain_list");
    println!("cargo::rustc-env=C_ARCHIVE={out}/libplain_list.a");
}

/// Cargo does not see the repository's .cargo/config.toml where it is called outside, and passes over it
/// where RUSTFLAGS is set; then the sides would not be compiled alike.
fn check_rust_flags(is_aligned: bool) {
    let flags = env::var("CARGO_ENCODED_RUSTFLAGS").unwrap_or_default();
    let is_alike = flags.contains("x86-64-v2") && flags.contains("-align-all") == is_aligned;
    assert!(is_alike, "rustc gets other flags than it should: {flags}");
}

fn compile_plain_c(out: &Path, more_flags: &str) {
    let include = format!("{HERE}/../../include");
    println!("cargo::rerun-if-changed={HERE}/c");
    println!("cargo::rerun-if-changed={include}");
    let archive = out.join("libplain_list.a");
    let mut ar = Command::new("ar");
    ar.arg("crs").arg(&archive);
    for name in ["free_node", "start", "turn"] {
        let object = out.join(format!("{name}.o"));
        let mut cc = Command::new("cc");
        cc.args(FLAGS.split_whitespace())
            .args(more_flags.split_whitespace());
        cc.arg(format!("-I{include}"))
            .arg(format!("{HERE}/c/{name}.c"));
        run(cc.arg("-o").arg(&object));
        ar.arg(object);
    }
    run(&mut ar);
}

fn run(command: &mut Command) {
    let status = command.status().expect("cc and ar are there");
    assert!(status.success(), "{command:?}: {status}");
}

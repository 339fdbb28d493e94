// Links the static library that `tools/build archive` writes.
use std::path::Path;
use std::process::Command;

fn main() {
    let root = Path::new(env!("CARGO_MANIFEST_DIR")).join("../..");
    for source in ["crates", "crates.txt", "target/staticlib/libanswer.a", "bindings/archive"] {
        println!("cargo::rerun-if-changed={}", root.join(source).display());
    }
    let asked = Command::new(root.join("bindings/archive")).output();
    let asked = asked.expect("bindings/archive can be run");
    if !asked.status.success() {
        println!("cargo::error={}", String::from_utf8_lossy(&asked.stderr).trim());
        return;
    }
    println!("cargo::rustc-link-search=native={}", root.join("target/staticlib").display());
    println!("cargo::rustc-link-lib=static=answer");
}

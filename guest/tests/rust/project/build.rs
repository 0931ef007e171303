//! Runs on the host, before the machine's program is compiled.

fn main() {
    let folder = std::env::var("OUT_DIR").unwrap();
    let target = std::env::var("TARGET").unwrap();
    std::fs::write(format!("{folder}/made.rs"), format!("pub const TARGET: &str = {target:?};\n")).unwrap();
    println!("cargo:rerun-if-changed=build.rs");
}

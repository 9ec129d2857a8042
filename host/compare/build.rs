//! Builds the C programs over both archives: for this machine and for x86-64.

use std::path::Path;
use std::process::Command;

const PROGRAMS: [&str; 3] = ["../c/serve.c", "../c/layout.c", "../c/texts.c"];
const OTHERS: [&str; 3] = ["../c/build", "../kit", "../include"];
const ARCHIVES: [&str; 2] = [
    "../../target/native/libwhipsail.a",
    "../../target/staticlib/libwhipsail.a",
];

fn main() {
    for input in PROGRAMS.iter().chain(&OTHERS).chain(&ARCHIVES) {
        println!("cargo:rerun-if-changed={input}");
    }
    for archive in ARCHIVES {
        assert!(Path::new(archive).exists(), "no {archive}: run host/lib");
    }
    let out = std::env::var("OUT_DIR").expect("cargo names a folder");
    for machine in ["native", "x86-64"] {
        let built = Command::new("../c/build")
            .args([machine, &format!("{out}/{machine}")])
            .args(PROGRAMS)
            .status()
            .expect("host/c/build runs");
        assert!(built.success(), "host/c/build failed");
    }
}

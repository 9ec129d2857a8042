//! Links the archive of the release or of `host/lib`; `WHIPSAIL_LIB` names another.

use std::env;
use std::path::PathBuf;

fn main() {
    println!("cargo:rerun-if-env-changed=WHIPSAIL_LIB");
    let named = env::var_os("WHIPSAIL_LIB").map(PathBuf::from);
    let is_named = named.is_some();
    let archive = named.unwrap_or_else(made_here);
    println!("cargo:rerun-if-changed={}", archive.display());
    let file = archive.file_name().and_then(|name| name.to_str());
    let (Some(folder), Some(file), true) = (archive.parent(), file, archive.is_file()) else {
        let shown = archive.display();
        match is_named {
            true => panic!("WHIPSAIL_LIB is {shown}: no such file (give an absolute path)"),
            false => panic!("no archive {shown}: run host/lib, or name one by WHIPSAIL_LIB"),
        }
    };
    println!("cargo:rustc-link-search=native={}", folder.display());
    println!("cargo:rustc-link-lib=static:+verbatim={file}");
}

/// In a release the archives stand beside this crate. In the repository `host/lib`
/// makes them: the proved one is for x86-64, another machine's of its module.
fn made_here() -> PathBuf {
    let machine = env::var("CARGO_CFG_TARGET_ARCH").expect("cargo names the machine");
    let root = PathBuf::from(env::var_os("CARGO_MANIFEST_DIR").expect("cargo names the folder"));
    let released = root.join("../lib");
    let folder = match machine.as_str() {
        _ if released.is_dir() => released.join(machine),
        "x86_64" => root.join("../../target/staticlib"),
        _ => root.join("../../target/native"),
    };
    folder.join("libwhipsail.a")
}

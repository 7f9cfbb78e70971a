//! Says where the proved library is: in `YOKBERD_LIB_DIR`, or where `tools/staticlib.sh` puts it.
use std::env;
use std::path::PathBuf;

fn main() {
    println!("cargo:rerun-if-env-changed=YOKBERD_LIB_DIR");
    let folder = match env::var_os("YOKBERD_LIB_DIR") {
        Some(folder) => PathBuf::from(folder),
        None => PathBuf::from(env::var_os("CARGO_MANIFEST_DIR").unwrap()).join("../target/staticlib"),
    };
    let archive = folder.join("libyokberd.a");
    println!("cargo:rerun-if-changed={}", archive.display());
    if !archive.is_file() {
        // no error: `cargo doc` and `cargo check` need no library
        println!("cargo:warning=libyokberd.a is not there, so nothing can be linked: run `tools/staticlib.sh` in the folder above rust/, or set YOKBERD_LIB_DIR");
    }
    println!("cargo:rustc-link-search=native={}", folder.canonicalize().unwrap_or(folder).display());
    println!("cargo:rustc-link-lib=static=yokberd");
}

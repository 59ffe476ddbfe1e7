//! Links the archive that `./make-archives bare` leaves in target/staticlib.
use std::env;
use std::path::PathBuf;
use std::process::exit;

fn main() {
    let here =
        PathBuf::from(env::var("CARGO_MANIFEST_DIR").expect("cargo says where this package is"));
    let archives = here.join("../../target/staticlib");
    let archive = archives.join("libbare.a");
    if !archive.exists() {
        eprintln!("the archive libbare.a is missing in target/staticlib; comparisons and figures need it.");
        eprintln!("This makes it, from the repository's top folder:");
        eprintln!("    ./make-archives bare");
        exit(1);
    }
    println!("cargo:rustc-link-search=native={}", archives.display());
    println!("cargo:rerun-if-changed={}", archive.display());
    println!("cargo:rustc-link-lib=static=bare");
}

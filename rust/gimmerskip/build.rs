//! Links the archives that `./make-archives` leaves, screen, reader and port, in target/staticlib.
use std::env;
use std::path::{Path, PathBuf};
use std::process::exit;

/// The archives that are linked.
const ARCHIVES: [&str; 3] = ["port", "reader", "screen"];

/// The file of an archive.
fn archive(name: &str) -> String {
    format!("lib{name}.a")
}

/// Ends the build with one message where archives are missing, however many they are.
fn stop_if_missing(folder: &Path) {
    let names = ARCHIVES.map(archive).into_iter();
    let missing: Vec<String> = names.filter(|name| !folder.join(name).exists()).collect();
    if !missing.is_empty() {
        eprintln!(
            "archives of proved code are missing in target/staticlib: {}.",
            missing.join(", ")
        );
        eprintln!("This makes them all, from the repository's top folder:");
        eprintln!("    ./make-archives screen reader port");
        exit(1);
    }
}

fn main() {
    let here =
        PathBuf::from(env::var("CARGO_MANIFEST_DIR").expect("cargo says where this package is"));
    let archives = here.join("../../target/staticlib");
    stop_if_missing(&archives);
    println!("cargo:rustc-link-search=native={}", archives.display());
    for name in ARCHIVES {
        println!("cargo:rerun-if-changed={}", archives.join(archive(name)).display());
        println!("cargo:rustc-link-lib=static={name}");
    }
}

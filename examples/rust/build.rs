//! Tells the linker where libbevelrose.a is: in the folder that BEVELROSE names, or else in that of `bin/library` in a checkout, in
//! lib/ of an unpacked package, or where a package was installed.

use std::env;
use std::path::{Path, PathBuf};

const PLACES: [&str; 3] = ["../../out/library", "../../lib", "/usr/lib/x86_64-linux-gnu"];

fn main() {
    let here = Path::new(env!("CARGO_MANIFEST_DIR"));
    let found = PLACES.iter().map(|place| here.join(place)).find(|folder| folder.join("libbevelrose.a").exists());
    let folder = env::var_os("BEVELROSE").map(PathBuf::from).or(found).expect("BEVELROSE names the folder with libbevelrose.a");
    println!("cargo:rerun-if-env-changed=BEVELROSE");
    println!("cargo:rerun-if-changed={}", folder.join("libbevelrose.a").display());
    println!("cargo:rustc-link-search=native={}", folder.display());
    println!("cargo:rustc-link-lib=static=bevelrose");
}

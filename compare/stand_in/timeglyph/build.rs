//! Has timeglyph's src/registry.rs and src/compose.rs compiled from where they lie, TIMEGLYPH being the absolute path of a
//! checkout, and hands on the version of jiff that cargo picked, as JIFF_VERSION.

use std::path::Path;
use std::{env, fs};

/// Of the workspace.
const LOCK: &str = "../../Cargo.lock";

fn main() {
    println!("cargo:rerun-if-changed={LOCK}");
    println!("cargo:rustc-env=JIFF_VERSION={}", jiff_version());

    println!("cargo:rerun-if-env-changed=TIMEGLYPH");
    let out = env::var("OUT_DIR").expect("cargo sets OUT_DIR");
    let modules = module("registry") + &module("compose");
    fs::write(Path::new(&out).join("modules.rs"), modules).expect("OUT_DIR can be written");
}

fn jiff_version() -> String {
    let lock = fs::read_to_string(LOCK).expect("cargo writes Cargo.lock before it builds");
    let version = lock
        .split("[[package]]")
        .find(|package| package.contains("\nname = \"jiff\"\n"))
        .and_then(|package| package.split("\nversion = \"").nth(1))
        .and_then(|rest| rest.split('"').next());
    version
        .expect("jiff and its version stand in Cargo.lock")
        .to_string()
}

/// The text that has a module of timeglyph compiled from where it lies.
fn module(name: &str) -> String {
    let timeglyph = env::var("TIMEGLYPH").expect("the scripts in compare/ set TIMEGLYPH");
    let path = Path::new(&timeglyph).join(format!("src/{name}.rs"));
    println!("cargo:rerun-if-changed={}", path.display());
    format!("#[path = {path:?}]\npub mod {name};\n")
}

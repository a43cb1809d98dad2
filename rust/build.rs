//! Finds libsleetrick.a, has it built where it is missing or stale, and links it.
//!
//! The archive stands in ../target/staticlib, with a record of what it was built from. Where the record does not fit the sources
//! under ../crates, and the Rattle kit is at hand, `tools/archive` proves the library and writes it anew; where the kit is not at
//! hand, the build stops and says how to mend it. The variable `SLEETRICK_LIB` names another folder that has an archive and its
//! record, from a machine with the kit: nothing is built there.

use std::path::{Path, PathBuf};
use std::process::{self, Command};
use std::{env, io};

const FOLDER: &str = "SLEETRICK_LIB";

fn main() {
    let package = PathBuf::from(variable("CARGO_MANIFEST_DIR"));
    let root = package.parent().expect("rust/ stands in the repository");
    let target = variable("TARGET");
    let named = env::var_os(FOLDER).map(PathBuf::from);
    let folder = named.clone().unwrap_or(root.join("target/staticlib"));
    println!("cargo:rerun-if-env-changed={FOLDER}");
    for part in [
        "rust/build.rs",
        "tools/archive",
        "crates",
        "crates.txt",
        "KIT",
    ] {
        println!("cargo:rerun-if-changed={}", root.join(part).display());
    }
    for file in ["libsleetrick.a", "libsleetrick.from"] {
        println!("cargo:rerun-if-changed={}", folder.join(file).display());
    }

    if !target.starts_with("x86_64") {
        println!("cargo:warning=the library for {target} is for tests there; what is shipped is for x86-64");
    }
    if let Some(folder) = named {
        if !folder.is_absolute() {
            stop(&format!(
                "{FOLDER} is {}, which is not an absolute path",
                folder.display()
            ));
        }
        if let Err(wrong) = check(root, &folder, &target) {
            stop(&format!(
                "{wrong}\n{FOLDER} names that folder. Copy libsleetrick.a and libsleetrick.from there from target/staticlib of a \
                 checkout of the same sources, on a machine with the Rattle kit, after `tools/archive build {target}` there."
            ));
        }
    } else if let Err(wrong) = check(root, &folder, &target) {
        build(root, &target, &wrong);
    }
    println!("cargo:rustc-link-search=native={}", folder.display());
    println!("cargo:rustc-link-lib=static=sleetrick");
}

/// Whether the archive in a folder is whole, and built for the target from the sources that are here; or what is wrong with it.
fn check(root: &Path, folder: &Path, target: &str) -> Result<(), String> {
    match archive(root).arg("check").arg(folder).arg(target).output() {
        Ok(output) if output.status.success() => Ok(()),
        Ok(output) => Err(String::from_utf8_lossy(&output.stderr)
            .trim_end()
            .to_owned()),
        Err(error) => Err(format!("tools/archive can't be run: {error}")),
    }
}

fn build(root: &Path, target: &str, wrong: &str) {
    if !kit_is_at_hand() {
        stop(&format!(
            "{wrong}\nIt can't be built here, because there is no `rt` on the path. Put the Rattle kit there, or have {FOLDER} name \
             a folder with libsleetrick.a and libsleetrick.from from a machine that has the kit."
        ));
    }
    match archive(root).arg("build").arg(target).output() {
        Ok(output) if output.status.success() => {
            if let Err(wrong) = check(root, &root.join("target/staticlib"), target) {
                stop(&wrong);
            }
        }
        Ok(output) => stop(&format!(
            "{wrong}\n`tools/archive build {target}` failed:\n{}{}",
            String::from_utf8_lossy(&output.stdout),
            String::from_utf8_lossy(&output.stderr)
        )),
        Err(error) => stop(&format!("tools/archive can't be run: {error}")),
    }
}

fn kit_is_at_hand() -> bool {
    match Command::new("rt").arg("version").output() {
        Ok(_) => true,
        Err(error) => error.kind() != io::ErrorKind::NotFound,
    }
}

fn archive(root: &Path) -> Command {
    let mut command = Command::new("sh");
    command.arg(root.join("tools/archive"));
    command
}

fn variable(name: &str) -> String {
    env::var(name).expect("cargo sets the variables of build scripts")
}

fn stop(message: &str) -> ! {
    eprintln!("sleetrick: {message}");
    process::exit(1)
}

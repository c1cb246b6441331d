//! Finds the published source of crossbeam-epoch and writes the module lines that compile its files where they lie.
//! Nothing of it is copied.

use std::env;
use std::fs;
use std::path::{Path, PathBuf};
use std::process::exit;

const VARIABLE: &str = "CROSSBEAM_EPOCH_SRC";
const DEFAULT: &str = "../../shared/docs/src/src";
const FILES: [&str; 6] = ["atomic", "collector", "deferred", "epoch", "guard", "internal"];
const SYNC: [&str; 2] = ["list", "queue"];

fn main() {
    println!("cargo::rerun-if-env-changed={VARIABLE}");
    println!("cargo::rerun-if-changed=build.rs");
    for name in ["crossbeam_loom", "crossbeam_sanitize", "crossbeam_sanitize_thread"] {
        println!("cargo::rustc-check-cfg=cfg({name})");
    }
    let folder = source_folder();
    let out = PathBuf::from(env::var("OUT_DIR").expect("cargo sets OUT_DIR"));
    fs::write(out.join("crossbeam_epoch.rs"), modules(&folder)).expect("OUT_DIR can be written");
}

fn source_folder() -> PathBuf {
    let given = env::var_os(VARIABLE).map(PathBuf::from);
    let here = PathBuf::from(env::var("CARGO_MANIFEST_DIR").expect("cargo sets CARGO_MANIFEST_DIR"));
    let folder = given.unwrap_or_else(|| here.join(DEFAULT));
    match fs::canonicalize(&folder) {
        Ok(found) if found.join("internal.rs").exists() => found,
        _ => {
            eprintln!("The source of crossbeam-epoch 0.9.21 was not found in {}.", folder.display());
            eprintln!("Set {VARIABLE} to the folder `src` of the published crate crossbeam-epoch 0.9.21");
            eprintln!("(the folder that holds internal.rs, epoch.rs and sync/list.rs).");
            exit(1)
        }
    }
}

fn modules(folder: &Path) -> String {
    let mut text = String::new();
    for name in FILES {
        text += &module(&folder.join(format!("{name}.rs")), name);
    }
    text += "mod sync {\n";
    for name in SYNC {
        text += &module(&folder.join("sync").join(format!("{name}.rs")), name);
    }
    text + "}\n"
}

fn module(path: &Path, name: &str) -> String {
    println!("cargo::rerun-if-changed={}", path.display());
    let quoted = format!("{:?}", path.display().to_string());
    format!("#[allow(warnings)]\n#[path = {quoted}]\npub(crate) mod {name};\n")
}

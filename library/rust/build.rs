//! Links libpitch_gate.a: from the folder in PITCH_GATE_LIBRARY, else from crates/pitch_gate/out of the repository. The archive has machine
//! code for x86-64 Linux, so that no other target can be built.

use std::env;
use std::path::{Path, PathBuf};

fn main() {
    println!("cargo::rerun-if-env-changed=PITCH_GATE_LIBRARY");
    let of_target = |name: &str| env::var(name).unwrap_or_default();
    let target = ["ARCH", "OS", "POINTER_WIDTH"].map(|name| of_target(&format!("CARGO_CFG_TARGET_{name}")));
    if target != ["x86_64", "linux", "64"] {
        println!("cargo::error=libpitch_gate.a is for x86_64 Linux and links into no program for {}", of_target("TARGET"));
        return;
    }
    let folder = library_folder();
    let archive = folder.join("libpitch_gate.a");
    println!("cargo::rerun-if-changed={}", archive.display());
    if archive.is_file() {
        println!("cargo::rustc-link-search=native={}", folder.display());
        println!("cargo::rustc-link-lib=static=pitch_gate");
    } else {
        println!(
            "cargo::error={} is not there: run `rt lib --cpu=x86-64` in crates/pitch_gate, \
             or name the archive's folder in PITCH_GATE_LIBRARY",
            archive.display()
        );
    }
}

fn library_folder() -> PathBuf {
    match env::var_os("PITCH_GATE_LIBRARY") {
        Some(folder) => PathBuf::from(folder),
        None => Path::new(env!("CARGO_MANIFEST_DIR")).join("../../crates/pitch_gate/out"),
    }
}

//! Links the archive of the proved library: target/archive/TARGET/libjambharrow.a of the repository,
//! for the processor that the crate is built for. It is made where it is missing, and anew, where
//! the sources have changed, if JAMBHARROW_REMAKE is set.
use std::env;
use std::path::Path;
use std::process::{Command, Stdio};

fn main() {
    let here = env::var("CARGO_MANIFEST_DIR").expect("cargo names the package's folder");
    let repository = Path::new(&here)
        .parent()
        .expect("the package stands in the repository");
    let triple = env::var("TARGET").expect("cargo names the target");
    let target = archive_target(&triple);
    let folder = repository.join("target/archive").join(target);
    let archive = folder.join("libjambharrow.a");
    if !archive.exists() || env::var_os("JAMBHARROW_REMAKE").is_some() {
        make_archive(repository, target);
    }
    println!("cargo::rerun-if-env-changed=JAMBHARROW_REMAKE");
    println!("cargo::rerun-if-changed={}", archive.display());
    println!("cargo::rustc-link-search=native={}", folder.display());
    println!("cargo::rustc-link-lib=static=jambharrow");
}

/// What tools/archive calls the target. An M7 is a thumbv7em as an M4 is, and runs its code.
fn archive_target(triple: &str) -> &str {
    match triple {
        "thumbv7em-none-eabihf" => "m4",
        "thumbv8m.main-none-eabihf" => "m33",
        "armv7-unknown-linux-gnueabihf" => "armv7",
        _ => triple.split('-').next().expect("a triple has a processor"),
    }
}

/// Has the library proved and its archive made, by the Rattle toolchain's `rt`.
fn make_archive(repository: &Path, target: &str) {
    let ended = Command::new(repository.join("tools/archive"))
        .arg(target)
        .stdout(Stdio::null())
        .status()
        .expect("tools/archive is run");
    assert!(ended.success(), "tools/archive {target}: {ended}");
}

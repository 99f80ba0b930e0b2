//! Takes the Rust from the folder that JAMBHARROW_RUST names, ../shared/docs/src beside the
//! repository where it names none. The text goes into the build as it stands, but for the `//!`
//! lines at its head, which `include!` refuses: they become `//`.
use std::path::{Path, PathBuf};
use std::{env, fs};

/// The files of vitni-tensor that the library includes.
const FILES: [&str; 2] = ["src/dtype.rs", "src/ops/quant.rs"];

fn main() {
    println!("cargo::rerun-if-env-changed=JAMBHARROW_RUST");
    // The feature is known, so that the Rust compiles without a warning, and nothing turns it on.
    println!("cargo::rustc-check-cfg=cfg(feature, values(\"std-parallel\"))");
    let out = PathBuf::from(env::var_os("OUT_DIR").expect("cargo names the output folder"));
    let folder = folder_of_the_rust();
    for file in FILES {
        let from = folder.join(file);
        println!("cargo::rerun-if-changed={}", from.display());
        let text = fs::read_to_string(&from).unwrap_or_else(|error| {
            panic!(
                "{}: {error}; JAMBHARROW_RUST names the folder of the Rust",
                from.display()
            )
        });
        let name = from.file_name().expect("each file has a name");
        fs::write(out.join(name), includable(&text)).expect("the output folder can be written");
    }
}

fn folder_of_the_rust() -> PathBuf {
    env::var_os("JAMBHARROW_RUST").map_or_else(
        || {
            let here = env::var_os("CARGO_MANIFEST_DIR").expect("cargo names the package's folder");
            Path::new(&here).join("../../shared/docs/src")
        },
        PathBuf::from,
    )
}

/// The text, with the `//!` lines at its head as `//` lines.
fn includable(text: &str) -> String {
    let head: usize = text
        .split_inclusive('\n')
        .take_while(|line| line.starts_with("//!"))
        .map(str::len)
        .sum();
    text[..head].replace("//!", "//") + &text[head..]
}

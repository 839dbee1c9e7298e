// Links the proved library: the archives that `rt lib` writes of the crates below, in the folder that GM_LIBRARY names or in each
// crate's own folder out/. Without them only the commands that need no library are built.
use std::{env, fs, path::PathBuf};

const ARCHIVES: [&str; 6] = ["capi", "capi_answers", "capi_histories", "capi_records", "capi_days", "capi_fetches"];

fn main() {
    let manifest = PathBuf::from(env::var_os("CARGO_MANIFEST_DIR").unwrap());
    let folder_of = |name: &str| match env::var_os("GM_LIBRARY") {
        Some(path) => PathBuf::from(path),
        None => manifest.join("../crates").join(name).join("out"),
    };
    println!("cargo::rustc-check-cfg=cfg(proved)");
    println!("cargo::rerun-if-env-changed=GM_LIBRARY");
    println!("cargo::rerun-if-changed=build.rs");
    let out = PathBuf::from(env::var_os("OUT_DIR").unwrap());
    for name in ARCHIVES {
        let file = format!("lib{name}.a");
        let archive = folder_of(name).join(&file);
        println!("cargo::rerun-if-changed={}", archive.display());
        if !archive.is_file() {
            println!("cargo::warning=no library at {}: run rt lib in crates/{name}", archive.display());
            return;
        }
        fs::copy(&archive, out.join(&file)).expect("the archive can be copied");
    }
    println!("cargo::rustc-link-search=native={}", out.display());
    for name in ARCHIVES {
        println!("cargo::rustc-link-lib=static={name}");
    }
    println!("cargo::rustc-cfg=proved");
}

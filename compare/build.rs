//! Links the static libraries that are there, and tells the code by a cfg which calls they have.

use std::path::{Path, PathBuf};

/// A cfg, and the calls that it takes, each after the library that must have it.
const CALLS: [(&str, &[(&str, &str)]); 5] = [
    ("has_text", &[("probe", "probe_read_book")]),
    ("has_judge", &[("probe", "probe_judge_book")]),
    ("has_host", &[("host", "bachumoi_decide")]),
    ("has_rig", &[("rig", "bachumoi_tick")]),
    ("has_salvage", &[("mender", "bachumoi_salvage"), ("probe", "probe_zero_wrong")]),
];

fn main() {
    let folder = std::env::var_os("STATICLIB_DIR")
        .map(PathBuf::from)
        .unwrap_or_else(|| PathBuf::from(env!("CARGO_MANIFEST_DIR")).join("../target/staticlib"));
    println!("cargo:rerun-if-env-changed=STATICLIB_DIR");
    println!("cargo:rustc-link-search=native={}", folder.display());
    for (cfg, calls) in CALLS {
        println!("cargo:rustc-check-cfg=cfg({cfg})");
        let found: Vec<bool> = calls.iter().map(|&(library, call)| has_call(&folder, library, call)).collect();
        if found.iter().all(|&is_there| is_there) {
            calls.iter().for_each(|(library, _)| println!("cargo:rustc-link-lib=static={library}"));
            println!("cargo:rustc-cfg={cfg}");
        }
    }
}

fn has_call(folder: &Path, library: &str, call: &str) -> bool {
    let archive = folder.join(format!("lib{library}.a"));
    println!("cargo:rerun-if-changed={}", archive.display());
    let bytes = std::fs::read(&archive).unwrap_or_default();
    bytes.windows(call.len()).any(|window| window == call.as_bytes())
}

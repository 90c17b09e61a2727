//! Copies the original's files out of the documents, unchanged, and writes the modules that name them.
//!
//! The documents' folder is `FJORD_DOCS`, as seen from `oracle/`.
use std::path::{Path, PathBuf};
use std::{env, fs};

const FILES: [&str; 7] = [
    "varint", "error", "desc", "frame", "protocol", "value", "block",
];

/// Not ours to tidy: only what the compiler says of the original is silenced, and only there.
const QUIET: &str =
    "#[allow(dead_code, unexpected_cfgs, unreachable_code, unused_variables, clippy::all)]";

fn documents() -> PathBuf {
    let folder = env::var("FJORD_DOCS").unwrap_or_else(|_| "../../shared/docs".into());
    let oracle = Path::new(env!("CARGO_MANIFEST_DIR")).parent();
    oracle.expect("this package stands in oracle/").join(folder)
}

fn main() {
    let documents = documents();
    let out = PathBuf::from(env::var("OUT_DIR").expect("cargo names a folder"));
    let mut modules = String::new();
    for name in FILES {
        let from = documents.join(format!("src--crates--fjord-wire--src--{name}.rs.txt"));
        let to = out.join(format!("{name}.rs"));
        let text = fs::read(&from)
            .unwrap_or_else(|e| panic!("{}: {e}; FJORD_DOCS names the folder", from.display()));
        fs::write(&to, text).expect("cargo's folder can be written");
        modules += &format!(
            "{QUIET}\n#[path = {:?}]\npub mod {name};\n",
            to.display().to_string()
        );
        println!("cargo:rerun-if-changed={}", from.display());
    }
    fs::write(out.join("modules.rs"), modules).expect("cargo's folder can be written");
    println!("cargo:rerun-if-env-changed=FJORD_DOCS");
}

//! Takes the Rust's `tarjan` from value_cycle.rs, and unionfind.rs whole, from the folder that ROTO_SRC names. The search
//! does without.

#[path = "../diff/extract.rs"]
#[allow(dead_code)]
mod extract;

use extract::{item, join};
use std::path::{Path, PathBuf};

/// What stands for the text where it is not there.
const NO_TEXT: &str = "compile_error!(\"ROTO_SRC names the folder that holds src/typechecker of the Rust\");\n";

fn taken(folder: &Path) -> String {
    let path = |file: &str| folder.join("src/typechecker").join(file).canonicalize().expect(file);
    let text = std::fs::read_to_string(path("value_cycle.rs")).expect("value_cycle.rs");
    let tarjan = join(
        [
            "struct State<",
            "struct VertexState {",
            "fn tarjan<",
            "fn strongly_connect<",
            "impl<V: Copy + Eq + Ord> State<V> {",
        ]
        .map(|start| item(&text, start, 0)),
    );
    format!("#[path = {:?}]\npub mod unionfind;\n\n{tarjan}", path("unionfind.rs"))
}

fn main() {
    println!("cargo::rerun-if-env-changed=ROTO_SRC");
    println!("cargo::rerun-if-changed=build.rs");
    let text = std::env::var_os("ROTO_SRC").map_or(NO_TEXT.to_string(), |folder| taken(Path::new(&folder)));
    let out = PathBuf::from(std::env::var_os("OUT_DIR").expect("OUT_DIR")).join("roto.rs");
    std::fs::write(out, text).expect("OUT_DIR");

    let lib = std::env::var("DEP_ENTRIES_FOLDER").expect("rulepack says where its library is");
    println!("cargo::rustc-link-search=native={lib}");
}

//! Makes the copy of the original that the program `rows` is built from: the sources of
//! docs/src as they stand, and in `solve_knuth` one line more, which prints the rows
//! just before they go to `KnuthAlgorithm::new`. The sources are not touched.

use std::env;
use std::fs;
use std::path::{Path, PathBuf};

const BEFORE: &str = "    let mut solver = crate::solver::knuth_algo::KnuthAlgorithm::new(\n";
const HOOK: &str = "    crate::print_rows(compiled_problem.num_board_blocks, &rows, &problem.piece_count);\n";

fn main() {
    let original = Path::new("../docs/src/src");
    println!("cargo:rerun-if-changed={}", original.display());
    println!("cargo:rerun-if-changed=build.rs");

    let copy = PathBuf::from(env::var("OUT_DIR").unwrap()).join("original");
    fs::create_dir_all(copy.join("solver")).unwrap();
    for name in ["mod.rs", "fast.rs", "knuth_algo.rs", "naive.rs"] {
        let name = Path::new("solver").join(name);
        let mut text = fs::read_to_string(original.join(&name)).unwrap();
        if name.ends_with("fast.rs") {
            assert_eq!(text.matches(BEFORE).count(), 1, "no one place for the hook in fast.rs");
            text = text.replace(BEFORE, &(HOOK.to_string() + BEFORE));
        }
        fs::write(copy.join(&name), text).unwrap();
    }

    // The modules as the root of a crate declares them, each by its path.
    let sources = fs::canonicalize(original).unwrap();
    let modules = [
        ("shape", sources.join("shape.rs")),
        ("solver", copy.join("solver/mod.rs")),
        ("utils", sources.join("utils.rs")),
    ];
    let declared = modules.map(|(name, path)| {
        format!("#[allow(warnings)]\n#[path = {path:?}]\npub mod {name};\n")
    });
    fs::write(copy.join("modules.rs"), declared.concat()).unwrap();
}

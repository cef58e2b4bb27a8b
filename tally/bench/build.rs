//! Links each benchmark with the static library of the work that it times, which `c-library.sh` writes.

use std::env;
use std::path::Path;

fn main() {
    let manifest = env::var("CARGO_MANIFEST_DIR").expect("cargo sets CARGO_MANIFEST_DIR");
    let folder = Path::new(&manifest).join("../../target/staticlib");
    for (binary, library, beside) in [
        ("bench", "table_bench", None),
        ("bridge", "bridge_bench", Some("heap")),
    ] {
        for name in [Some(library), beside].into_iter().flatten() {
            let archive = folder.join(format!("lib{name}.a"));
            println!("cargo::rerun-if-changed={}", archive.display());
            println!("cargo::rustc-link-arg-bin={binary}={}", archive.display());
        }
        if !folder.join(format!("lib{library}.a")).is_file() {
            println!(
                "cargo::warning=to build {binary}, run `./c-library.sh {library}` in the repository's root first"
            );
        }
    }
}

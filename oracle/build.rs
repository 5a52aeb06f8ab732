//! Says where the two Rust files are: the folder named by RUSZVEDOK_RUST_SRC (a relative one is taken from the repository's
//! folder), or `../shared/docs/src/src` beside the repository.
use std::env;
use std::path::PathBuf;

fn main() {
    println!("cargo:rerun-if-env-changed=RUSZVEDOK_RUST_SRC");
    let repository = PathBuf::from(env::var("CARGO_MANIFEST_DIR").unwrap()).join("..");
    let named = env::var("RUSZVEDOK_RUST_SRC").unwrap_or_else(|_| "../shared/docs/src/src".into());
    let folder = repository.join(named);
    let folder = folder.canonicalize().unwrap_or_else(|e| panic!("RUSZVEDOK_RUST_SRC: {}: {e}", folder.display()));
    for file in ["formatter.rs", "text_util.rs"] {
        let path = folder.join(file);
        assert!(path.is_file(), "no file {} (set RUSZVEDOK_RUST_SRC)", path.display());
        println!("cargo:rerun-if-changed={}", path.display());
    }
    println!("cargo:rustc-env=RUSZVEDOK_RUST_SRC={}", folder.display());
}

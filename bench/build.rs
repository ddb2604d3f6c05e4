//! With the feature `archive`: links the static archive at the path RULE_ARCHIVE.

use std::path::PathBuf;

fn main() {
    println!("cargo:rerun-if-env-changed=RULE_ARCHIVE");
    if std::env::var_os("CARGO_FEATURE_ARCHIVE").is_none() {
        return;
    }
    let path = std::env::var_os("RULE_ARCHIVE").expect("RULE_ARCHIVE: path of the archive");
    let path = PathBuf::from(path).canonicalize().expect("RULE_ARCHIVE");
    println!("cargo:rerun-if-changed={}", path.display());
    println!("cargo:rustc-link-arg-bins={}", path.display());
}

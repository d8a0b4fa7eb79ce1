//! Tells cargo where the static library is that `tools/build` writes.
use std::env;
use std::path::PathBuf;

fn main() {
    println!("cargo:rerun-if-env-changed=STAPLETHREAD_LIB_DIR");
    let folder = env::var_os("STAPLETHREAD_LIB_DIR").map_or_else(default_folder, PathBuf::from);
    let library = folder.join("libstaplethread.a");
    assert!(
        library.exists(),
        "{} is not there: `tools/build` writes it",
        library.display()
    );
    println!("cargo:rerun-if-changed={}", library.display());
    println!("cargo:rustc-link-search=native={}", folder.display());
    println!("cargo:rustc-link-lib=static=staplethread");
}

fn default_folder() -> PathBuf {
    let here = env::var_os("CARGO_MANIFEST_DIR").expect("cargo sets it");
    PathBuf::from(here).join("../target/staticlib")
}

// Links libberylskip.a, from BERYLSKIP_LIB_DIR or from target/staticlib, where the tools write it.
use std::env;
use std::path::PathBuf;

fn main() {
    let folder = match env::var_os("BERYLSKIP_LIB_DIR") {
        Some(folder) => PathBuf::from(folder),
        None => {
            PathBuf::from(env::var_os("CARGO_MANIFEST_DIR").unwrap()).join("../../target/staticlib")
        }
    };
    println!("cargo:rerun-if-env-changed=BERYLSKIP_LIB_DIR");
    println!(
        "cargo:rerun-if-changed={}",
        folder.join("libberylskip.a").display()
    );
    println!("cargo:rustc-link-search=native={}", folder.display());
    println!("cargo:rustc-link-lib=static=berylskip");
}

//! Says where the archives of the proved code lie; src/linked.rs names them.

fn main() {
    for name in ["timing", "racing"] {
        let folder = format!("{}/../crates/{name}/out", env!("CARGO_MANIFEST_DIR"));
        println!("cargo:rustc-link-search=native={folder}");
        println!("cargo:rerun-if-changed={folder}/lib{name}.a");
    }
}

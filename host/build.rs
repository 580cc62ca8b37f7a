// Links the static library that host/build makes; VUNCHREM_LIB names another folder that has liblibrary.a.
fn main() {
    let folder = std::env::var("VUNCHREM_LIB")
        .unwrap_or_else(|_| format!("{}/../target/staticlib", env!("CARGO_MANIFEST_DIR")));
    println!("cargo:rerun-if-env-changed=VUNCHREM_LIB");
    println!("cargo:rerun-if-changed={folder}/liblibrary.a");
    println!("cargo:rustc-link-search=native={folder}");
    println!("cargo:rustc-link-lib=static=library");
}

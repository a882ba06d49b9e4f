//! Links the static library, whose folder is IX_EXPORT_LIB.
fn main() {
    println!("cargo:rerun-if-env-changed=IX_EXPORT_LIB");
    if let Ok(folder) = std::env::var("IX_EXPORT_LIB") {
        println!("cargo:rustc-link-search=native={folder}");
    }
    println!("cargo:rustc-link-lib=static=ix_export");
}

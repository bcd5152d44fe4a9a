//! Links the archive of the proved library, XIPHOMERA_ARCHIVE, into the programs.

fn main() {
    println!("cargo:rerun-if-env-changed=XIPHOMERA_ARCHIVE");
    if let Ok(archive) = std::env::var("XIPHOMERA_ARCHIVE") {
        println!("cargo:rerun-if-changed={archive}");
        println!("cargo:rustc-link-arg-bins={archive}");
    }
}

//! Links the archive of the proved readings, and anew whenever it has changed.

fn main() {
    let archive = std::env::var("PROVED_ARCHIVE").expect("PROVED_ARCHIVE, which tests/real sets");
    println!("cargo:rerun-if-env-changed=PROVED_ARCHIVE");
    println!("cargo:rerun-if-changed={archive}");
    println!("cargo:rustc-link-arg={archive}");
}

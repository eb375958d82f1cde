// Links the archive that bin/archive builds.
fn main() {
    let archive = concat!(env!("CARGO_MANIFEST_DIR"), "/../../target/host");
    println!("cargo:rustc-link-search=native={archive}");
    println!("cargo:rustc-link-lib=static=exports");
    println!("cargo:rerun-if-changed={archive}/libexports.a");
}

//! Says where the proved archives are, and that what is linked with them is linked again where they change.

fn main() {
    let folder = concat!(env!("CARGO_MANIFEST_DIR"), "/../../target/staticlib");
    println!("cargo:rustc-link-search=native={folder}");
    for archive in ["phayaklit", "host_repair"] {
        println!("cargo:rerun-if-changed={folder}/lib{archive}.a");
    }
}

//! Links `libmrjob.a` of the folder that MRJOB_LIB names, which is the checkout's lib/ where it is not set.
fn main() {
    println!("cargo:rerun-if-env-changed=MRJOB_LIB");
    let folder = std::env::var("MRJOB_LIB")
        .unwrap_or_else(|_| concat!(env!("CARGO_MANIFEST_DIR"), "/../../lib").to_string());
    println!("cargo:rustc-link-search=native={folder}");
    println!("cargo:rustc-link-lib=static=mrjob");
}

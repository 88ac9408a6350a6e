//! Links libtext_calls.a; compare/texts/run names its folder as TEXT_CALLS_LIB.

fn main() {
    println!("cargo:rerun-if-env-changed=TEXT_CALLS_LIB");
    let folder = std::env::var("TEXT_CALLS_LIB").expect("TEXT_CALLS_LIB names the folder of libtext_calls.a");
    println!("cargo:rustc-link-search=native={folder}");
    println!("cargo:rerun-if-changed={folder}/libtext_calls.a");
}

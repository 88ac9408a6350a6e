//! Links hiredis, whose folder bench/run asks of pkg-config and passes as HIREDIS_LIB.

fn main() {
    println!("cargo:rerun-if-env-changed=HIREDIS_LIB");
    if let Ok(folder) = std::env::var("HIREDIS_LIB") {
        println!("cargo:rustc-link-search=native={folder}");
    }
    println!("cargo:rustc-link-lib=static=hiredis");
}

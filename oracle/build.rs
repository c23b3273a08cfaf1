//! Says where the static libraries of the engines under test lie.
fn main() {
    println!("cargo:rerun-if-changed=build.rs");
    if std::env::var_os("CARGO_FEATURE_PROVED").is_some() {
        let root = std::env::var("CARGO_MANIFEST_DIR").unwrap();
        println!("cargo:rustc-link-search=native={root}/../c/out");
        for name in ["koubospar", "koubospar_codec"] {
            println!("cargo:rerun-if-changed={root}/../c/out/lib{name}.a");
        }
    }
    if std::env::var_os("CARGO_FEATURE_PLAIN").is_some() {
        let root = std::env::var("CARGO_MANIFEST_DIR").unwrap();
        println!("cargo:rustc-link-search=native={root}/../bench");
        println!("cargo:rerun-if-changed={root}/../bench/libplain.a");
    }
}

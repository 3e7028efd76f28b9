//! Links libtrace.a from the folder named by TRACE_LIB_DIR, an absolute path.
//! Without the variable only `cargo test --lib` can be built.

fn main() {
    println!("cargo:rerun-if-env-changed=TRACE_LIB_DIR");
    println!("cargo:rerun-if-changed=build.rs");
    if let Ok(dir) = std::env::var("TRACE_LIB_DIR") {
        println!("cargo:rerun-if-changed={dir}/libtrace.a");
        println!("cargo:rustc-link-search=native={dir}");
        println!("cargo:rustc-link-lib=static=trace");
    }
}

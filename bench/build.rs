//! Links the port's loops (crates/bench, exported by crates/bench_c); the exported entry comes with the wrapper (rust/).
use std::env;
use std::path::PathBuf;

fn main() {
    println!("cargo:rerun-if-env-changed=BENCH_LIB");
    let folder = env::var("BENCH_LIB")
        .expect("set BENCH_LIB to the folder of libbench.a (target/lib: tools/bench puts it there)");
    let folder = PathBuf::from(folder).canonicalize().expect("BENCH_LIB names no folder");
    println!("cargo:rerun-if-changed={}", folder.join("libbench.a").display());
    println!("cargo:rustc-link-search=native={}", folder.display());
    println!("cargo:rustc-link-lib=static=bench");
}

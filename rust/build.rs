//! Links the proved library, libcgb_vram_dma.a: from the folder that CGB_VRAM_DMA_LIB names; where that is not set from lib/ of
//! this package, as in the release archive, or from ../target/lib, as in a clone after tools/library.
use std::path::{Path, PathBuf};
use std::{env, process};

const LIBRARY: &str = "libcgb_vram_dma.a";

fn main() {
    println!("cargo::rerun-if-changed=build.rs");
    println!("cargo::rerun-if-env-changed=CGB_VRAM_DMA_LIB");
    let arch = env::var("CARGO_CFG_TARGET_ARCH").expect("cargo sets it");
    if arch != "x86_64" {
        end(&format!("cgb_vram_dma: the proved library is machine code for x86-64; this build is for {arch}"));
    }
    let folders = folders();
    match folders.iter().find(|folder| folder.join(LIBRARY).is_file()) {
        Some(folder) => link(folder),
        None => end(&missing(&folders)),
    }
}

/// Where to look, in this order. A folder that was named is the only one: another library in its place would go unnoticed.
fn folders() -> Vec<PathBuf> {
    let package = PathBuf::from(env::var_os("CARGO_MANIFEST_DIR").expect("cargo sets it"));
    match env::var_os("CGB_VRAM_DMA_LIB") {
        Some(named) => vec![package.join(named)],
        None => vec![package.join("lib"), package.join("../target/lib")],
    }
}

fn link(folder: &Path) {
    println!("cargo::rerun-if-changed={}", folder.join(LIBRARY).display());
    println!("cargo::rustc-link-search=native={}", folder.display());
    println!("cargo::rustc-link-lib=static=cgb_vram_dma");
}

fn missing(folders: &[PathBuf]) -> String {
    let looked: Vec<String> =
        folders.iter().map(|folder| format!("    {}\n", folder.join(LIBRARY).display())).collect();
    format!(
        "cgb_vram_dma: the proved library is missing. There is no\n{}\
        The release archive has it, in lib/ and in rust/lib/. In a clone `sh tools/library` proves it, with the Rattle kit,\n\
        and writes target/lib/{LIBRARY}. CGB_VRAM_DMA_LIB names another folder to take it from, by its absolute path.",
        looked.concat()
    )
}

/// Cargo shows the message; a panic would put a backtrace beside it.
fn end(message: &str) -> ! {
    eprintln!("{message}");
    process::exit(1)
}

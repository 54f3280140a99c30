//! Finds the original sources, which are not part of this repository, and makes modules of them:
//! six files as they are, and of lib.rs the declaration of `Cgb` with its `Default` and its own methods.
use std::path::PathBuf;
use std::{env, fs};

#[path = "branches.rs"]
mod branches;

fn main() {
    println!("cargo:rerun-if-env-changed=MISSINGNO_SRC");
    let source = PathBuf::from(
        env::var("MISSINGNO_SRC")
            .expect("set MISSINGNO_SRC to the folder crates/systems/gbc/src of ajoneil/missingno (5e5b8d7dad)"),
    )
    .canonicalize()
    .expect("MISSINGNO_SRC names no folder");
    let out = PathBuf::from(env::var("OUT_DIR").unwrap());
    // With BRANCHES a copy is made that tells what of it was reached.
    println!("cargo:rerun-if-env-changed=BRANCHES");
    println!("cargo:rerun-if-changed=branches.rs");
    println!("cargo:rustc-check-cfg=cfg(branches)");
    let probing = env::var("BRANCHES").is_ok();
    let mut probes = Vec::new();
    let mut modules = String::new();
    for name in ["bus", "console_state", "registers", "speed_switch", "vram", "vram_dma"] {
        let file = source.join(format!("{name}.rs"));
        assert!(file.is_file(), "{} is missing", file.display());
        println!("cargo:rerun-if-changed={}", file.display());
        let used = if probing {
            let copy = out.join(format!("{name}.rs"));
            let text = fs::read_to_string(&file).unwrap();
            fs::write(&copy, branches::instrumented(&format!("{name}.rs"), &text, &mut probes)).unwrap();
            copy
        } else {
            file
        };
        modules += &format!("#[path = {used:?}]\n#[allow(dead_code, unused_parens)]\nmod {name};\n");
    }
    fs::write(out.join("originals.rs"), modules).unwrap();
    let lib = fs::read_to_string(source.join("lib.rs")).expect("lib.rs is missing");
    println!("cargo:rerun-if-changed={}", source.join("lib.rs").display());
    let begin = lib.find("/// The Game Boy Color [`Model`].").expect("lib.rs has no `Cgb`");
    let end = lib.find("impl Model for Cgb {").expect("lib.rs has no `impl Model for Cgb`");
    let mut cgb = lib[begin..end].to_string();
    if probing {
        // With the lines before it empty, so that a place has its line of lib.rs.
        let above = "\n".repeat(lib[..begin].lines().count());
        cgb = branches::instrumented("lib.rs", &(above + &cgb), &mut probes);
    }
    // As of the modules, nothing is said of what goes unused.
    for item in ["pub struct Cgb {", "impl Cgb {"] {
        cgb = cgb.replace(item, &format!("#[allow(dead_code)]\n{item}"));
    }
    fs::write(out.join("cgb.rs"), cgb).unwrap();
    if probing {
        println!("cargo:rustc-cfg=branches");
        let row = |p: &branches::Probe| format!("({:?}, {}, {:?}, {}),\n", p.file, p.line, p.text, p.mark);
        let rows: Vec<String> = probes.iter().map(row).collect();
        let table = format!("pub const PROBES: [(&str, u32, &str, bool); {}] = [\n{}];\n", probes.len(), rows.concat());
        fs::write(out.join("probes.rs"), table).unwrap();
    }
}

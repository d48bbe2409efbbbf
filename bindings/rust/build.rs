//! Links the archives: from TOGGLEASH_LIB_DIR where that is set, else from where `./build` writes them for the processor that this
//! crate is compiled for. An archive that is missing, or is for another processor, is told in one line.

use std::env;
use std::fs;
use std::path::PathBuf;
use std::process::exit;

/// The targets of `./build`, with the number that an ELF file has for each, and its words: 64 bits, little end first.
const TARGETS: [(&str, u16, bool, bool); 6] = [
    ("x86_64", 62, true, true),
    ("aarch64", 183, true, true),
    ("armv7", 40, false, true),
    ("riscv64", 243, true, true),
    ("mips", 8, false, false),
    ("mipsel", 8, false, true),
];

fn main() {
    println!("cargo:rerun-if-env-changed=TOGGLEASH_LIB_DIR");
    let target = target();
    for library in ["toggleash", "toggleash_resolve", "toggleash_packed", "toggleash_shortest", "toggleash_damp"] {
        link(&target, library);
    }
}

fn link(target: &str, library: &str) {
    let archive = folder(target).join(format!("lib{library}.a"));
    println!("cargo:rerun-if-changed={}", archive.display());
    let Ok(bytes) = fs::read(&archive) else {
        stop(&format!(
            "no {}: `./build --target {target}` writes it; or set TOGGLEASH_LIB_DIR to its folder",
            archive.display()
        ));
    };
    match processor(&bytes) {
        Some(found) if found == target => (),
        Some(found) => stop(&format!("{} is for {found}, and this is compiled for {target}", archive.display())),
        None => stop(&format!("{} is no archive of ./build", archive.display())),
    }
    println!("cargo:rustc-link-search=native={}", archive.parent().expect("it has a folder").display());
    println!("cargo:rustc-link-lib=static={library}");
}

fn stop(line: &str) -> ! {
    eprintln!("{line}");
    exit(1);
}

/// A variable that cargo sets.
fn set(name: &str) -> String {
    env::var(name).expect("cargo sets it")
}

/// The processor compiled for, by the names of `./build`; where it has none, by Rust's.
fn target() -> String {
    match (set("CARGO_CFG_TARGET_ARCH").as_str(), set("CARGO_CFG_TARGET_ENDIAN").as_str()) {
        ("arm", "little") => "armv7".into(),
        ("mips", "little") => "mipsel".into(),
        (name, _) => name.into(),
    }
}

/// A relative TOGGLEASH_LIB_DIR counts from this crate, where cargo runs this program.
fn folder(target: &str) -> PathBuf {
    let given = env::var_os("TOGGLEASH_LIB_DIR").filter(|dir| !dir.is_empty());
    let written = || PathBuf::from("../../target/native").join(target);
    PathBuf::from(set("CARGO_MANIFEST_DIR")).join(given.map_or_else(written, PathBuf::from))
}

/// The processor of the first ELF file in the archive.
fn processor(archive: &[u8]) -> Option<&'static str> {
    let start = archive.windows(4).position(|four| four == b"\x7fELF")?;
    let head = archive.get(start..start + 20)?;
    let (wide, little) = (head[4] == 2, head[5] == 1);
    let number = [head[18], head[19]];
    let number = if little { u16::from_le_bytes(number) } else { u16::from_be_bytes(number) };
    let found = TARGETS.iter().find(|&&(_, n, w, l)| (n, w, l) == (number, wide, little));
    found.map(|&(name, ..)| name)
}

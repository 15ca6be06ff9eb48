//! Links libyultarvas.a from the folder that YULTARVAS_LIB names; where it is not set, from target/native of
//! this repository, where `bash tools/native.sh yultarvas` writes it. Where there is none, or it is for
//! another machine, one sentence says so and nothing is built.
use std::path::{Path, PathBuf};
use std::{env, fs, process};

/// The numbers by which ELF files name a machine.
const MACHINES: [(u16, &str); 2] = [(62, "x86_64"), (183, "aarch64")];

/// The machine that the first object file of an archive is for, as ELF numbers it.
fn machine_of(archive: &[u8]) -> Option<u16> {
    let mut at = archive.strip_prefix(b"!<arch>\n")?;
    loop {
        let head = at.get(..60)?;
        let size: usize = std::str::from_utf8(&head[48..58]).ok()?.trim().parse().ok()?;
        let member = at.get(60..60 + size)?;
        if member.starts_with(b"\x7fELF") {
            return Some(u16::from_le_bytes([*member.get(18)?, *member.get(19)?]));
        }
        at = at.get(60 + size + size % 2..)?; // the archive's own tables stand in front
    }
}

/// Why the library in a folder cannot be linked into a program for a machine, as one sentence.
pub fn trouble(folder: &Path, wanted: &str) -> Option<String> {
    let library = folder.join("libyultarvas.a");
    let Ok(archive) = fs::read(&library) else {
        return Some(format!(
            "there is no {}: run `bash tools/native.sh yultarvas`, or set YULTARVAS_LIB to the folder of libyultarvas.a",
            library.display()
        ));
    };
    let Some(machine) = machine_of(&archive) else {
        return Some(format!("{} is no static library for Linux", library.display()));
    };
    let known = MACHINES.iter().find(|(number, _)| *number == machine);
    let found = known.map_or("an unknown machine", |(_, name)| *name);
    (found != wanted).then(|| {
        format!(
            "{} is for {found}, and this build is for {wanted}",
            library.display()
        )
    })
}

fn main() {
    println!("cargo:rerun-if-env-changed=YULTARVAS_LIB");
    let variable = |name: &str| env::var_os(name).unwrap_or_else(|| panic!("cargo sets {name}"));
    let folder = match env::var_os("YULTARVAS_LIB") {
        Some(folder) => PathBuf::from(folder),
        None => PathBuf::from(variable("CARGO_MANIFEST_DIR")).join("../../target/native"),
    };
    println!(
        "cargo:rerun-if-changed={}",
        folder.join("libyultarvas.a").display()
    );
    if let Some(why) = trouble(&folder, &variable("CARGO_CFG_TARGET_ARCH").to_string_lossy()) {
        eprintln!("yultarvas: {why}");
        process::exit(1);
    }
    println!("cargo:rustc-link-search=native={}", folder.display());
    println!("cargo:rustc-link-lib=static=yultarvas");
    println!("cargo:rustc-env=YULTARVAS_FOLDER={}", folder.display());
}

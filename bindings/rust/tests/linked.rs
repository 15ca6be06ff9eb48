//! What build.rs says where the library is missing or is for another machine.
#[allow(dead_code)]
#[path = "../build.rs"]
mod build;

use std::path::{Path, PathBuf};
use std::{env, fs, process};

fn folder(name: &str, library: Option<&[u8]>) -> PathBuf {
    let folder = env::temp_dir().join(format!("yultarvas-{}-{name}", process::id()));
    fs::create_dir_all(&folder).unwrap();
    if let Some(bytes) = library {
        fs::write(folder.join("libyultarvas.a"), bytes).unwrap();
    }
    folder
}

#[test]
fn one_sentence() {
    let linked = Path::new(env!("YULTARVAS_FOLDER"));
    let (here, other, number) = if cfg!(target_arch = "aarch64") {
        ("aarch64", "x86_64", 62u16)
    } else {
        ("x86_64", "aarch64", 183)
    };
    assert_eq!(build::trouble(linked, here), None);
    assert!(build::trouble(linked, other)
        .unwrap()
        .ends_with(&format!("is for {here}, and this build is for {other}")));

    let mut turned = fs::read(linked.join("libyultarvas.a")).unwrap();
    let elf = turned.windows(4).position(|w| w == b"\x7fELF").unwrap();
    turned[elf + 18..elf + 20].copy_from_slice(&number.to_le_bytes());
    let cases = [
        (folder("none", None), "there is no "),
        (
            folder("text", Some(b"no archive")),
            "is no static library for Linux",
        ),
        (
            folder("empty", Some(b"!<arch>\n")),
            "is no static library for Linux",
        ),
        (
            folder("turned", Some(&turned)),
            &format!("is for {other}, and this build is for {here}"),
        ),
    ];
    for (folder, sentence) in cases {
        let said = build::trouble(&folder, here).unwrap();
        fs::remove_dir_all(&folder).unwrap();
        assert!(said.contains(sentence), "{said}");
        assert_eq!(said.lines().count(), 1);
    }
}

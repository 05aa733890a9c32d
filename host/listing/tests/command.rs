//! The command ./listing takes TURNIPLOOM_LIB as every build does, and can be started through a link.

use std::{env, fs, path::Path, process::Command};

/// What the command says when the archive that TURNIPLOOM_LIB names is none.
fn refused(command: &Path, lib: &str) -> String {
    let out = Command::new(command).arg("samples/K.txt").env("TURNIPLOOM_LIB", lib)
        .env("CARGO_TARGET_DIR", Path::new(env!("CARGO_TARGET_TMPDIR")).join("command")).output().unwrap();
    assert!(!out.status.success(), "it was built");
    String::from_utf8(out.stderr).unwrap()
}

/// Help stands in the source, so that no archive is made to read it.
#[test]
fn help_needs_no_archive() {
    let root = Path::new(env!("CARGO_MANIFEST_DIR")).join("../..");
    for word in ["--help", "-h"] {
        let out = Command::new(root.join("listing")).arg(word).env("TURNIPLOOM_LIB", "/gone").output().unwrap();
        assert!(out.status.success() && String::from_utf8(out.stdout).unwrap() == format!("{}\n", listing::options::USE));
    }
}

#[test]
fn one_meaning_of_a_named_archive() {
    let root = Path::new(env!("CARGO_MANIFEST_DIR")).join("../..").canonicalize().unwrap();
    let link = env::temp_dir().join(format!("turniploom-listing-{}", std::process::id()));
    std::os::unix::fs::symlink(root.join("listing"), &link).unwrap();
    let says = [refused(&root.join("listing"), "target/staticlib/libturniploom.a"), refused(&link, "/gone/libturniploom.a")];
    fs::remove_file(&link).unwrap();
    assert!(says[0].contains("TURNIPLOOM_LIB is target/staticlib/libturniploom.a, a relative path: give the whole path"), "{}", says[0]);
    assert!(says[1].contains("TURNIPLOOM_LIB is /gone/libturniploom.a, and no archive is there"), "{}", says[1]);
}

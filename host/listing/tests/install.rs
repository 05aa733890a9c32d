//! What ./install puts where, and the package: a host in C is built from what is installed, and the installed listing runs.

use std::{env, fs, path::{Path, PathBuf}, process::{Command, Output}};
use turniploom::{ARCHIVE_SHA256, KIT, VERSION, abi};

fn root() -> PathBuf { Path::new(env!("CARGO_MANIFEST_DIR")).join("../..").canonicalize().unwrap() }

/// An empty folder of a test's own.
fn folder(name: &str) -> PathBuf {
    let path = Path::new(env!("CARGO_TARGET_TMPDIR")).join(name);
    let _ = fs::remove_dir_all(&path);
    fs::create_dir_all(&path).unwrap();
    path
}

fn install(words: &[&str], names: &[(&str, &Path)]) -> Output {
    let mut command = Command::new(root().join("install"));
    command.args(words).env_remove("DESTDIR").env_remove("PREFIX").env("TURNIPLOOM_LIB", abi::ARCHIVE).env("LISTING", env!("CARGO_BIN_EXE_listing"));
    for (name, value) in names { command.env(name, value); }
    command.output().unwrap()
}

fn said(output: &Output) -> String { String::from_utf8_lossy(&[&output.stdout[..], &output.stderr].concat()).into_owned() }

fn good(output: Output) -> String {
    assert!(output.status.success(), "{}", said(&output));
    said(&output)
}

/// What stands where a system expects it.
const FILES: [&str; 11] = [
    "bin/turniploom-listing", "lib/libturniploom.a", "lib/libturniploom.kit", "include/turniploom.h", "lib/pkgconfig/turniploom.pc",
        "share/man/man1/turniploom-listing.1.gz",
    "share/man/man3/turniploom.3.gz", "share/doc/turniploom/copyright", "share/doc/turniploom/NOTATION.md", "share/doc/turniploom/samples/host.c",
        "share/doc/turniploom/samples/jacket.txt",
];

fn unzipped(file: &Path) -> String { String::from_utf8(Command::new("gzip").arg("-dc").arg(file).output().unwrap().stdout).unwrap() }

#[test]
fn installed_for_a_system() {
    let to = folder("installed");
    good(install(&[], &[("DESTDIR", &to)]));
    let at = to.join("usr/local");
    for file in FILES { assert!(at.join(file).is_file(), "{file}") }
    let version = good(Command::new(at.join("bin/turniploom-listing")).arg("--version").output().unwrap());
    assert_eq!(version, format!("turniploom {VERSION}\narchive sha256 {ARCHIVE_SHA256}\nproved with {KIT}\n"));
    assert_eq!(fs::read_to_string(at.join("lib/libturniploom.kit")).unwrap().trim(), KIT);
    let pc = fs::read_to_string(at.join("lib/pkgconfig/turniploom.pc")).unwrap();
    assert!(pc.starts_with("prefix=/usr/local\n") && pc.contains(&format!("\nVersion: {VERSION}\n")) && pc
        .contains(&format!("\nsha256={ARCHIVE_SHA256}\nkit={KIT}\n")) && pc.contains("-lturniploom"), "{pc}");
    // A host in C from what is installed.
    let gcc = Command::new("gcc").args(["-std=c11", "-Wall", "-Werror", "-I"]).arg(at.join("include")).arg(at
        .join("share/doc/turniploom/samples/host.c")).arg("-L").arg(at.join("lib")).arg("-lturniploom").arg("-o").arg(to.join("host")).output();
    let Ok(gcc) = gcc else { return println!("left out: there is no gcc") };
    good(gcc);
    assert!(good(Command::new(to.join("host")).output().unwrap()).starts_with(&format!("turniploom {VERSION}: 2 kept")));
    if let Ok(config) = Command::new("pkg-config").args(["--modversion", "turniploom"]).env("PKG_CONFIG_PATH", at.join("lib/pkgconfig")).output() {
        assert_eq!(good(config).trim(), VERSION) }
}

/// The manuals have every option of --help and every call of the header, and whose proof it is.
#[test]
fn the_manuals() {
    let to = folder("manuals");
    good(install(&[], &[("DESTDIR", &to), ("PREFIX", Path::new("/opt/t"))]));
    let at = to.join("opt/t/share/man");
    let (command, calls) = (unzipped(&at.join("man1/turniploom-listing.1.gz")), unzipped(&at.join("man3/turniploom.3.gz")));
    let options = listing::options::USE.split(|c: char| c.is_whitespace() || "=,".contains(c)).filter(|w| w.starts_with("--"));
    for option in options { assert!(command.replace("\\-", "-").contains(option), "{option}") }
    for call in abi::CALLS { assert!(calls.contains(&format!(".B turniploom_{}\n{}\n", call.name, call.says.concat().trim())), "{}", call.name) }
    for page in [&command, &calls] { assert!(page.starts_with(".TH ") && page.contains(&format!("\"turniploom {VERSION}\"")) && page
        .contains("/opt/t/") && !page.contains('@'), "{page}") }
    assert!(calls.contains(&format!("sha256 {ARCHIVE_SHA256}, proved with {KIT}")));
}

#[test]
fn a_package() {
    if Command::new("dpkg-deb").arg("--version").output().is_err() { return println!("left out: there is no dpkg-deb") }
    let to = folder("package");
    good(install(&["--deb"], &[("DEB", &to)]));
    let package = fs::read_dir(&to).unwrap().map(|f| f.unwrap().path()).find(|p| p.extension().is_some_and(|e| e == "deb")).expect("a package");
    assert!(package.file_name().unwrap().to_string_lossy().starts_with(&format!("turniploom_{VERSION}_")));
    let asked = |word: &str| good(Command::new("dpkg-deb").arg(word).arg(&package).output().unwrap());
    let (fields, contents) = (asked("--field"), asked("--contents"));
    assert!(fields.contains(&format!("\nVersion: {VERSION}\n")) && fields.contains(ARCHIVE_SHA256) && fields.contains(KIT), "{fields}");
    for file in FILES { assert!(contents.contains(&format!("./usr/{file}\n")), "{file}: {contents}") }
    good(Command::new("dpkg-deb").arg("--extract").arg(&package).arg(to.join("out")).output().unwrap());
    assert_eq!(fs::read(to.join("out/usr/lib/libturniploom.a")).unwrap(), fs::read(abi::ARCHIVE).unwrap());
}

/// What is missing is said, and a listing of another archive is not installed with this one.
#[test]
fn what_can_not_be_installed() {
    let to = folder("not-installed");
    let refused = |names: &[(&str, &Path)]| { let out = install(&[], names); assert_eq!(out.status.code(), Some(2)); said(&out) };
    assert!(refused(&[("DESTDIR", &to), ("TURNIPLOOM_LIB", Path::new("/gone.a"))]).starts_with("install: there is no archive at /gone.a: run `.ci/archive`"));
    assert!(refused(&[("DESTDIR", &to), ("TURNIPLOOM_LIB", Path::new("some.a"))]).contains("a relative path"));
    let other = to.join("other.a");
    fs::write(&other, "another").unwrap();
    assert!(refused(&[("DESTDIR", &to), ("TURNIPLOOM_LIB", &other)]).contains("was built with another archive than"));
    assert!(!to.join("usr").exists());
}

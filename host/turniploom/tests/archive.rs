//! The archive: found in one way everywhere, held to the whole table of calls, and linked into hosts outside this workspace.

use std::{env, ffi::OsString, fs, os::unix::fs::symlink, path::{Path, PathBuf}, process::{Command, Output}};

/// The archive that this crate was built with.
const ARCHIVE: &str = env!("TURNIPLOOM_ARCHIVE");

fn here() -> &'static Path { Path::new(env!("CARGO_MANIFEST_DIR")) }

/// An empty folder of a test's own, outside every workspace; it goes when the test is over.
struct Folder(PathBuf);

impl Drop for Folder {
    fn drop(&mut self) { let _ = fs::remove_dir_all(&self.0); }
}

impl std::ops::Deref for Folder {
    type Target = Path;
    fn deref(&self) -> &Path { &self.0 }
}

fn folder(name: &str) -> Folder {
    let path = env::temp_dir().canonicalize().unwrap().join(format!("turniploom-{name}-{}", std::process::id()));
    fs::create_dir_all(&path).unwrap();
    Folder(path)
}

/// What a host takes of this crate when it copies it: the manifest, the build script and the sources.
fn copied(to: &Path) {
    fs::create_dir_all(to.join("src")).unwrap();
    for file in ["Cargo.toml", "build.rs"] { fs::copy(here().join(file), to.join(file)).unwrap(); }
    for file in fs::read_dir(here().join("src")).unwrap() {
        let file = file.unwrap();
        fs::copy(file.path(), to.join("src").join(file.file_name())).unwrap();
    }
}

/// The folders of PATH; for one that has `rt`, a folder of links to all else that it has.
fn without_rt(folder: &Folder) -> OsString {
    let mirror = |(k, dir): (usize, PathBuf)| {
        if !dir.join("rt").exists() { return dir }
        let links = folder.join(format!("path-{k}"));
        if fs::create_dir(&links).is_ok() {
            let others = fs::read_dir(&dir).unwrap().map(|f| f.unwrap()).filter(|f| f.file_name() != "rt");
            for file in others { symlink(file.path(), links.join(file.file_name())).unwrap() }
        }
        links
    };
    env::join_paths(env::split_paths(&env::var_os("PATH").unwrap()).enumerate().map(mirror)).unwrap()
}

/// Runs cargo for the crate in `place`, with TURNIPLOOM_LIB as given and no `rt` to be found. It builds in the test's own folder.
fn cargo(folder: &Folder, place: &Path, words: &[&str], lib: Option<&str>) -> Output {
    let mut command = Command::new(env!("CARGO"));
    command.args(words).args(["--offline", "--quiet"]).current_dir(place).env("PATH", without_rt(folder));
    command.env("CARGO_TARGET_DIR", folder.join("built")).env_remove("TURNIPLOOM_LIB");
    // Each is built once and thrown away.
    command.env("CARGO_INCREMENTAL", "0").env("CARGO_PROFILE_DEV_DEBUG", "0");
    if let Some(lib) = lib { command.env("TURNIPLOOM_LIB", lib); }
    command.output().unwrap()
}

/// What a build that must fail says.
fn refused(folder: &Folder, place: &Path, lib: Option<&str>) -> String {
    let out = cargo(folder, place, &["check"], lib);
    assert!(!out.status.success(), "it was built");
    String::from_utf8(out.stderr).unwrap()
}

/// A copy of the repository as far as the build script looks at it, with no archive: its root and the crate in it.
fn repository(name: &str) -> (Folder, PathBuf) {
    let root = folder(name);
    fs::create_dir_all(root.join("crates/turniploom")).unwrap();
    fs::write(root.join("crates.txt"), "").unwrap();
    let inside = root.join("host/turniploom");
    copied(&inside);
    (root, inside)
}

#[test]
fn without_archive_and_rt_the_build_names_the_path_and_two_ways() {
    let (root, inside) = repository("bare");
    for lib in [None, Some("")] {
        let says = refused(&root, &inside, lib);
        let looked = root.join("target/staticlib/libturniploom.a");
        assert!(says.contains(&format!("no archive of the proved calls at {} (rt can't be run", looked.display())), "{says}");
        assert!(says.contains(&format!("run `.ci/archive` in {}; or set TURNIPLOOM_LIB to the whole path of one", root.display())), "{says}");
    }
}

#[test]
fn a_copy_alone_looks_beside_its_manifest() {
    let alone = folder("alone");
    copied(&alone);
    let says = refused(&alone, &alone, None);
    assert!(says.contains(&format!("no archive of the proved calls at {}", alone.join("libturniploom.a").display())), "{says}");
    assert!(says.contains("Two ways to get one"), "{says}");
}

#[test]
fn a_named_archive_is_that_one_or_none() {
    let (root, inside) = repository("named");
    // The repository has one too: it does not stand in for one that is named and not there.
    fs::create_dir_all(root.join("target/staticlib")).unwrap();
    fs::copy(ARCHIVE, root.join("target/staticlib/libturniploom.a")).unwrap();
    assert!(cargo(&root, &inside, &["check"], None).status.success());
    let gone = root.join("gone.a");
    assert!(refused(&root, &inside, gone.to_str()).contains(&format!("TURNIPLOOM_LIB is {}, and no archive is there", gone.display())));
    for relative in ["target/staticlib/libturniploom.a", "../../target/staticlib/libturniploom.a"] {
        assert!(refused(&root, &inside, Some(relative)).contains(&format!("TURNIPLOOM_LIB is {relative}, a relative path: give the whole path")));
    }
    let text = root.join("text.a");
    fs::write(&text, "no archive").unwrap();
    assert!(refused(&root, &inside, text.to_str()).contains(&format!("{} is no archive with an index of its symbols", text.display())));
}

#[test]
fn a_lost_call_fails_the_build_and_is_named() {
    let folder = folder("lost");
    let lost = folder.join("libturniploom.a");
    let renamed = ["turniploom_kept=elsewhere_kept", "turniploom_fold=elsewhere_fold"].iter().flat_map(|names| ["--redefine-sym", names]);
    assert!(Command::new("objcopy").args(renamed).arg(ARCHIVE).arg(&lost).status().unwrap().success());
    let says = refused(&folder, here(), lost.to_str());
    assert!(says.contains(&format!("the archive {} does not export turniploom_kept, turniploom_fold: make it anew", lost.display())), "{says}");
}

/// A crate of its own, outside every workspace, that takes this crate by a path.
fn host(folder: &Path, name: &str, path: &Path, main: &str) {
    fs::create_dir_all(folder.join("src")).unwrap();
    let manifest = format!(
        "[package]\nname = {name:?}\nversion = \"0.1.0\"\nedition = \"2024\"\n\n[dependencies]\nturniploom = {{ path = {path:?} }}\n\n[workspace]\n"
    );
    fs::write(folder.join("Cargo.toml"), manifest).unwrap();
    fs::write(folder.join("src/main.rs"), main).unwrap();
}

/// What a host prints.
fn printed(folder: &Folder, lib: Option<&str>) -> String {
    let out = cargo(folder, folder, &["run"], lib);
    assert!(out.status.success(), "{}", String::from_utf8_lossy(&out.stderr));
    String::from_utf8(out.stdout).unwrap()
}

/// By its path in the repository, with an archive that is reached through a link of another name.
#[test]
fn a_host_outside_the_workspace_by_path() {
    let folder = folder("by-path");
    let link = folder.join("calls-of-today.a");
    symlink(ARCHIVE, &link).unwrap();
    host(&folder, "by-path", here(), include_str!("../examples/keep.rs"));
    assert_eq!(printed(&folder, link.to_str()), include_str!("examples/keep.txt"));
}

/// A rule that calls itself, with a saver.
#[test]
fn a_host_that_saves_frames() {
    let folder = folder("saves");
    host(&folder, "saves", here(), include_str!("../examples/jacket.rs"));
    assert_eq!(printed(&folder, Some(ARCHIVE)), include_str!("examples/jacket.txt"));
}

/// Where wishes add, a host must leave room: it can't match on all that is there today, nor build it by its fields. It takes the crate without `std` here,
/// on core and alloc alone.
#[test]
fn a_host_that_leaves_no_room_is_not_built() {
    let folder = folder("closed");
    let main = include_str!("closed/host.rs");
    host(&folder, "closed", here(), main);
    let manifest = fs::read_to_string(folder.join("Cargo.toml")).unwrap().replace(" }", ", default-features = false }");
    fs::write(folder.join("Cargo.toml"), manifest).unwrap();
    let out = cargo(&folder, &folder, &["check", "--message-format", "short"], Some(ARCHIVE));
    let says = String::from_utf8(out.stderr).unwrap();
    // A line `src/main.rs:7:24: error[E0004]: ..` for each that is due.
    let told = says.lines().filter_map(|l| {
        let (line, rest) = l.strip_prefix("src/main.rs:")?.split_once(':')?;
        Some((line.parse::<usize>().ok()?, rest.split_once("error[")?.1[..5].to_string()))
    });
    let due = main.lines().enumerate().filter_map(|(k, l)| Some((k + 1, l.split_once(" //= ")?.1.to_string())));
    assert_eq!(told.collect::<std::collections::BTreeSet<_>>(), due.collect(), "{says}");
}

/// By a copy that holds its own archive, with nothing of this repository at hand.
#[test]
fn a_host_with_a_copy_of_the_crate() {
    let folder = folder("by-copy");
    copied(&folder.join("vendor/turniploom"));
    fs::copy(ARCHIVE, folder.join("vendor/turniploom/libturniploom.a")).unwrap();
    host(&folder, "by-copy", Path::new("vendor/turniploom"), include_str!("../examples/fold.rs"));
    assert_eq!(printed(&folder, None), include_str!("examples/fold.txt"));
}

//! The comparison catches a wrong archive: one wrong answer, a write to lent tries or beside them, a lost call.

use std::{fs, path::{Path, PathBuf}, process::{Command, Output}};

fn here() -> &'static Path { Path::new(env!("CARGO_MANIFEST_DIR")) }

fn folder() -> PathBuf {
    let folder = Path::new(env!("CARGO_TARGET_TMPDIR")).join("wrapped");
    fs::create_dir_all(&folder).unwrap();
    folder
}

fn done(command: &mut Command) {
    let out = command.output().unwrap();
    assert!(out.status.success(), "{}", String::from_utf8_lossy(&out.stderr));
}

/// The archive with `turniploom_kept` under another name, and the fault's own in its place if it is given.
fn archive(name: &str, fault: Option<&Path>) -> PathBuf {
    let path = folder().join(name);
    let _ = fs::remove_file(&path);
    done(Command::new("objcopy").args(["--redefine-sym", "turniploom_kept=own_kept"]).arg(turniploom::abi::ARCHIVE).arg(&path));
    if let Some(object) = fault { done(Command::new("ar").arg("rs").arg(&path).arg(object)) }
    path
}

/// Builds the comparison over an archive, by itself.
fn built(archive: &Path) -> Output {
    Command::new(env!("CARGO")).args(["build", "--offline", "--quiet", "--bin", "oracle", "--manifest-path"]).arg(here().join("Cargo.toml"))
        .env("CARGO_PROFILE_DEV_OPT_LEVEL", "0").env("CARGO_PROFILE_DEV_DEBUG", "0").env("CARGO_INCREMENTAL", "0")
        .env("TURNIPLOOM_LIB", archive).env("CARGO_TARGET_DIR", archive.with_extension("built")).output().unwrap()
}

/// Compares the kept-register call with that fault, and gives what is said. One thread: which failures are shown hangs on who comes first.
fn compared(fault: &str) -> (bool, String) {
    let mut oracle = Command::new(folder().join("faulty.built/debug/oracle"));
    let out = oracle.args(["--calls", "kept", "--rounds", "4", "--threads", "1"]).env("TURNIPLOOM_FAULT", fault).output().unwrap();
    (out.status.success(), String::from_utf8(out.stdout).unwrap())
}

#[test]
fn a_wrong_archive_is_caught() {
    let object = folder().join("fault.o");
    let source = here().join("tests/wrapped/fault.c");
    done(Command::new("gcc").args(["-c", "-O1", "-Wall", "-I"]).arg(here().join("../../include")).arg(source).arg("-o").arg(&object));
    let built = built(&archive("faulty.a", Some(&object)));
    assert!(built.status.success(), "{}", String::from_utf8_lossy(&built.stderr));
    let (well, says) = compared("none");
    assert!(well && says.lines().last().unwrap().starts_with("All is well: the port, the model and the Rust agree on "), "{says}");
    for (fault, shown) in [
        ("answer", "# the port: [0, 3, 2, 0, 0] [7, 7, 0] [0, 3, 3] [0, 1, 3]\n# the model: [0, 3, 2, 0, 0] [7, 7, 0] [0, 3, 3] [0, 1, 2]\n"),
        ("tries", "# the port: panicked: tries was written"),
        ("beside", "# the port: panicked: a word beside a buffer was written"),
    ] {
        let (well, says) = compared(fault);
        assert!(!well && says.contains(shown) && says.contains("# kept regs="), "{fault}: {says}");
        assert!(says.lines().last().unwrap().starts_with("WRONG: "), "{fault}: {says}");
    }
}

#[test]
fn a_lost_call_is_named() {
    let out = built(&archive("lost.a", None));
    let says = String::from_utf8_lossy(&out.stderr).into_owned();
    assert!(!out.status.success() && says.contains("does not export turniploom_kept"), "{says}");
}

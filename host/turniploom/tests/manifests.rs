//! What the manifests and the sources tell a host: the Rust it needs, one version, and what each function answers or panics on.

use std::{fs, path::Path, process::Command};

fn here() -> &'static Path { Path::new(env!("CARGO_MANIFEST_DIR")) }

/// What cargo knows of a manifest's packages, as one text.
fn metadata(manifest: &Path) -> String {
    let out = Command::new(env!("CARGO")).args(["metadata", "--offline", "--no-deps", "--format-version", "1", "--manifest-path"]).arg(manifest)
        .output().unwrap();
    assert!(out.status.success(), "{}", String::from_utf8_lossy(&out.stderr));
    String::from_utf8(out.stdout).unwrap()
}

/// The values of a key of the packages.
fn values<'a>(text: &'a str, key: &str) -> Vec<&'a str> {
    text.split(&format!("\"{key}\":")).skip(1).map(|rest| rest.split([',', '}']).next().unwrap()).collect()
}

/// Every crate says which Rust it needs: clippy then refuses what came later. The safe crate, which hosts take, needs no more than the others.
#[test]
fn each_crate_says_which_rust_it_needs() {
    let text = metadata(&here().join("../Cargo.toml"));
    let (ids, needs) = (values(&text, "manifest_path"), values(&text, "rust_version"));
    assert_eq!(ids.len(), needs.len(), "{text}");
    let minor = |need: &str| need.trim_matches('"').strip_prefix("1.").and_then(|m| m.split('.').next()?.parse::<u32>().ok());
    let minors: Vec<u32> = ids.iter().zip(&needs).map(|(id, need)| minor(need).unwrap_or_else(|| panic!("{id} has rust-version {need}"))).collect();
    let own = ids.iter().position(|id| id.ends_with("/turniploom/Cargo.toml\"")).expect("the safe crate");
    assert!(ids.len() >= 6 && minors.iter().all(|&m| m >= minors[own]), "{needs:?}");
    // The safe crate's manifest says it by itself, for those who copy it.
    assert!(fs::read_to_string(here().join("Cargo.toml")).unwrap().contains(&format!("\nrust-version = \"1.{}\"\n", minors[own])));
}

#[test]
fn all_crates_have_one_version() {
    let text = metadata(&here().join("../Cargo.toml"));
    let versions: Vec<&str> = text.split("\"id\":\"").skip(1).map(|p| p.split('"').next().unwrap().rsplit(['#', '@']).next().unwrap()).collect();
    assert!(versions.len() >= 6 && versions.iter().all(|v| *v == env!("CARGO_PKG_VERSION")), "{versions:?}");
}

/// The public functions of a source with the lines of documentation and attributes above each.
fn functions(text: &str) -> Vec<(String, String)> {
    let lines: Vec<&str> = text.lines().collect();
    let about = |k: usize| {
        let above = lines[..k].iter().rev().take_while(|l| { let l = l.trim(); l.starts_with("///") || l.starts_with("#[") || l.starts_with("$(") });
        above.map(|l| format!("{}\n", l.trim())).collect::<String>()
    };
    let whole = |k: usize| lines[k..].iter().take_while(|l| !l.trim().is_empty()).copied().collect::<Vec<_>>().join(" ");
    let head = |k: usize| whole(k).split('{').next().unwrap().to_string();
    let public = |l: &str| l.trim().starts_with("pub fn ") || l.trim().starts_with("pub const fn ");
    (0..lines.len()).filter(|&k| public(lines[k])).map(|k| (head(k), about(k))).collect()
}

#[test]
fn errors_and_panics_are_told() {
    let (mut results, mut panics) = (0, 0);
    for file in fs::read_dir(here().join("src")).unwrap() {
        let path = file.unwrap().path();
        for (head, about) in functions(&fs::read_to_string(&path).unwrap()) {
            let answers = head.split_once("->").is_some_and(|(_, to)| to.contains("Result<"));
            assert!(!answers || about.contains("# Errors"), "{}: {head} does not say its errors", path.display());
            assert!(!about.contains("#[track_caller]") || about.contains("# Panics"), "{}: {head} does not say when it panics", path.display());
            (results, panics) = (results + usize::from(answers), panics + usize::from(about.contains("# Panics")));
        }
    }
    assert!(results >= 30 && panics >= 6, "{results} {panics}");
    let lib = include_str!("../src/lib.rs");
    assert!(lib.contains("clippy::missing_errors_doc") && lib.contains("clippy::missing_panics_doc") && lib.contains("missing_docs"));
}

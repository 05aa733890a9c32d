//! Finds the archive, has it made if it is the repository's own and not there, and holds it to the table of calls.

use std::{env, fs, path::{Path, PathBuf}, process::{Command, exit}};

macro_rules! calls {
    ($($(#[$doc:meta])* $name:ident $params:tt -> $answer:tt;)*) => {
        /// The symbols that the archive must have.
        const SYMBOLS: &[&str] = &[$(concat!("turniploom_", stringify!($name))),*];
    };
}

include!("src/table.rs");

/// Says why nothing can be built.
fn refuse(why: &str) -> ! {
    println!("cargo::error={why}");
    exit(1)
}

fn main() {
    println!("cargo::rerun-if-env-changed=TURNIPLOOM_LIB");
    println!("cargo::rerun-if-changed=build.rs");
    println!("cargo::rerun-if-changed=src/table.rs");
    let archive = archive();
    println!("cargo::rerun-if-changed={}", archive.display());
    // A link may come to name an older file, which no time of change tells: then every build looks anew.
    if archive.canonicalize().is_ok_and(|real| real != archive) { println!("cargo::rerun-if-changed=always") }
    let bytes = fs::read(&archive).unwrap_or_else(|e| refuse(&format!("the archive {} can't be read: {e}", archive.display())));
    let Some(symbols) = symbols(&bytes) else { refuse(&format!("{} is no archive with an index of its symbols", archive.display())) };
    let lost: Vec<&str> = SYMBOLS.iter().copied().filter(|s| !symbols.contains(s)).collect();
    if !lost.is_empty() { refuse(&format!("the archive {} does not export {}: make it anew", archive.display(), lost.join(", "))) }
    // A copy under the name that the linker looks for, whatever the archive is called.
    let copy = PathBuf::from(env::var_os("OUT_DIR").unwrap()).join("libturniploom.a");
    fs::write(&copy, &bytes).unwrap_or_else(|e| refuse(&format!("{}: {e}", copy.display())));
    println!("cargo::rustc-env=TURNIPLOOM_ARCHIVE={}", copy.display());
    println!("cargo::rustc-env=TURNIPLOOM_SHA256={}", sha256(&bytes));
    println!("cargo::rustc-env=TURNIPLOOM_KIT={}", kit(&archive));
    println!("cargo::rustc-link-search=native={}", copy.parent().unwrap().display());
    println!("cargo::rustc-link-lib=static=turniploom");
}

/// The archive that TURNIPLOOM_LIB names by its whole path. Else the repository's own, made by `.ci/archive` if it is not there; and for
/// a copy of this crate by itself, the one beside its Cargo.toml.
fn archive() -> PathBuf {
    if let Some(named) = env::var_os("TURNIPLOOM_LIB").filter(|v| !v.is_empty()).map(PathBuf::from) {
        if named.is_relative() { refuse(&format!("TURNIPLOOM_LIB is {}, a relative path: give the whole path of the archive", named.display())) }
        if !named.is_file() { refuse(&format!("TURNIPLOOM_LIB is {}, and no archive is there", named.display())) }
        return named;
    }
    let crate_dir = PathBuf::from(env::var_os("CARGO_MANIFEST_DIR").unwrap());
    let root = crate_dir.join("../..").canonicalize().ok().filter(|r| r.join("crates/turniploom").is_dir() && r.join("crates.txt").is_file());
    let path = root.as_ref().map_or(crate_dir.join("libturniploom.a"), |r| r.join("target/staticlib/libturniploom.a"));
    if path.is_file() { return path }
    let made = root.as_ref().map_or(Err("this is a copy of the crate alone".into()), |r| make(r));
    if path.is_file() { return path }
    let place = root.map_or("the repository of turniploom, and copy it there".into(), |r| r.display().to_string());
    refuse(&format!(
        "no archive of the proved calls at {} ({}). Two ways to get one: run `.ci/archive` in {place}; \
         or set TURNIPLOOM_LIB to the whole path of one",
        path.display(), made.err().unwrap_or(".ci/archive made none".into()),
    ))
}

/// The kit that proved the calls: the line of the file `libturniploom.kit` beside the archive, if it is no older, else what `rt version` says.
fn kit(archive: &Path) -> String {
    let beside = archive.with_file_name("libturniploom.kit");
    let changed = |p: &Path| fs::metadata(p).and_then(|m| m.modified()).ok();
    let fresh = changed(&beside).is_some_and(|kit| changed(archive).is_some_and(|made| kit >= made));
    println!("cargo::rerun-if-changed={}", beside.display());
    let asked = || Command::new("rt").arg("version").output().ok().filter(|o| o.status.success()).map(|o| String::from_utf8_lossy(&o.stdout).into_owned());
    let told = fs::read_to_string(beside).ok().filter(|_| fresh).or_else(asked).unwrap_or_default();
    told.lines().next().map(str::trim).filter(|l| !l.is_empty()).unwrap_or("a kit that is not known").to_string()
}

/// SHA-256 of some bytes, in hex digits (FIPS 180-4).
fn sha256(bytes: &[u8]) -> String {
    // The fractions of the square and cube roots of the first primes, 32 bits of each.
    let primes = (2u32..).filter(|n| (2..*n).take_while(|d| d * d <= *n).all(|d| n % d != 0));
    let roots: Vec<(u32, u32)> = primes.take(64).map(|p| (fraction(p, 2), fraction(p, 3))).collect();
    let mut state: [u32; 8] = std::array::from_fn(|k| roots[k].0);
    let mut message = bytes.to_vec();
    message.push(0x80);
    message.resize((message.len() + 8).next_multiple_of(64) - 8, 0);
    message.extend((8 * bytes.len() as u64).to_be_bytes());
    for block in message.chunks_exact(64) {
        let mut w: Vec<u32> = block.chunks_exact(4).map(|b| u32::from_be_bytes([b[0], b[1], b[2], b[3]])).collect();
        for t in 16..64 {
            let (x, y) = (w[t - 15], w[t - 2]);
            let (s0, s1) = (x.rotate_right(7) ^ x.rotate_right(18) ^ x >> 3, y.rotate_right(17) ^ y.rotate_right(19) ^ y >> 10);
            w.push(w[t - 16].wrapping_add(s0).wrapping_add(w[t - 7]).wrapping_add(s1));
        }
        let [mut a, mut b, mut c, mut d, mut e, mut f, mut g, mut h] = state;
        for t in 0..64 {
            let s1 = e.rotate_right(6) ^ e.rotate_right(11) ^ e.rotate_right(25);
            let t1 = h.wrapping_add(s1).wrapping_add(e & f ^ !e & g).wrapping_add(roots[t].1).wrapping_add(w[t]);
            let s0 = a.rotate_right(2) ^ a.rotate_right(13) ^ a.rotate_right(22);
            let t2 = s0.wrapping_add(a & b ^ a & c ^ b & c);
            (h, g, f, e, d, c, b, a) = (g, f, e, d.wrapping_add(t1), c, b, a, t1.wrapping_add(t2));
        }
        for (s, v) in state.iter_mut().zip([a, b, c, d, e, f, g, h]) { *s = s.wrapping_add(v) }
    }
    state.iter().map(|w| format!("{w:08x}")).collect()
}

/// The first 32 bits of the fraction of a prime's square or cube root, found bit by bit.
fn fraction(prime: u32, power: u32) -> u32 {
    let due = u128::from(prime) << (32 * power);
    let mut root: u128 = 0;
    for bit in (0..37).rev() { if (root | 1 << bit).pow(power) <= due { root |= 1 << bit } }
    root as u32
}

/// Has the archive made, or says in a line why that failed.
fn make(root: &Path) -> Result<(), String> {
    Command::new("rt").arg("version").output().map_err(|e| format!("rt can't be run: {e}"))?;
    let made = Command::new(root.join(".ci/archive")).output().map_err(|e| format!(".ci/archive can't be run: {e}"))?;
    if made.status.success() { return Ok(()) }
    let said = String::from_utf8_lossy(&[made.stdout, made.stderr].concat()).into_owned();
    Err(format!(".ci/archive failed: {}", said.lines().last().unwrap_or_default()))
}

/// The symbols that an archive's index lists: the first member, `/` with offsets of 4 bytes or `/SYM64/` with 8.
fn symbols(archive: &[u8]) -> Option<Vec<&str>> {
    let header = archive.strip_prefix(b"!<arch>\n")?.get(..60)?;
    let width = match str::from_utf8(&header[..16]).ok()?.trim_end() {
        "/" => 4,
        "/SYM64/" => 8,
        _ => return None,
    };
    let size: usize = str::from_utf8(&header[48..58]).ok()?.trim().parse().ok()?;
    let index = archive.get(68..)?.get(..size)?;
    let count = index.get(..width)?.iter().fold(0, |n, &b| n << 8 | usize::from(b));
    let names = index.get(width.checked_mul(count.checked_add(1)?)?..)?;
    names.split(|&b| b == 0).take(count).map(|name| str::from_utf8(name).ok()).collect()
}

//! Finds the static library, `libiface.a`; with the feature `rust-heap` the one without a heap, `libiface_c.a`. In this
//! order:
//!
//! 1. with `FUMITORYGATE_TRY=1`, in a checkout of the repository: the unproved one, which `make -C c unproved` builds;
//! 2. the folder that `FUMITORYGATE_LIB_DIR` names;
//! 3. `lib/TARGET` beside this file, where a published crate carries it;
//! 4. in a checkout, for the machine that builds: what `make -C c` built. With `FUMITORYGATE_MAKE=1` it is run, which
//!    proves the library before it builds it, and so takes long the first time;
//! 5. `pkg-config iface`, for the machine that builds, if the installed `iface.h` is the one that `src/sys.rs` was made
//!    from.
//!
//! A library is proved if a file `.proof` tells of it: a line that begins with `logic=proved`, then its checksum
//! (SHA-256). One of another checksum is refused, and cargo warns of one without the file. Without a library the build
//! ends here; `DOCS_RS=1` lets `cargo check` and `cargo doc` do without.
use std::env;
use std::fs;
use std::path::{Path, PathBuf};
use std::process::{Command, exit};

#[path = "build/sha256.rs"]
mod sha256;

/// A library, and the file that tells of its proof.
struct Found {
    folder: PathBuf,
    name: String,
    proof: PathBuf,
}

impl Found {
    fn in_folder(folder: &Path, library: &str) -> Option<Self> {
        let archive = folder.join(format!("lib{library}.a"));
        println!("cargo::rerun-if-changed={}", archive.display());
        archive.exists().then(|| Self {
            folder: folder.canonicalize().unwrap_or_else(|_| folder.to_path_buf()),
            name: library.into(),
            proof: folder.join(format!("lib{library}.a.proof")),
        })
    }

    fn archive(&self) -> PathBuf {
        self.folder.join(format!("lib{}.a", self.name))
    }
}

fn main() {
    println!("cargo::rerun-if-changed=build.rs");
    println!("cargo::rerun-if-changed=build/sha256.rs");
    for name in ["FUMITORYGATE_LIB_DIR", "FUMITORYGATE_MAKE", "FUMITORYGATE_TRY", "PKG_CONFIG_PATH", "DOCS_RS"] {
        println!("cargo::rerun-if-env-changed={name}");
    }
    let own_heap = env::var_os("CARGO_FEATURE_RUST_HEAP").is_some();
    let library = if own_heap { "iface_c" } else { "iface" };
    let here = PathBuf::from(text("CARGO_MANIFEST_DIR"));
    let target = text("TARGET");
    let is_native = architecture(&target) == architecture(&text("HOST"));
    let carried = here.join("lib").join(&target);

    if env::var_os("FUMITORYGATE_TRY").is_some_and(|value| value == "1") {
        let found = if is_native { unproved(&here.join(".."), library) } else { None };
        let found = found.unwrap_or_else(|| {
            stop("FUMITORYGATE_TRY=1 builds the unproved library in a checkout of the repository, for the machine itself")
        });
        warn_of(&found, "it is the one that FUMITORYGATE_TRY=1 asks for");
        return link(&found);
    }
    let found = if let Some(folder) = env::var_os("FUMITORYGATE_LIB_DIR") {
        let folder = PathBuf::from(folder);
        Some(Found::in_folder(&folder, library).unwrap_or_else(|| {
            stop(&format!("there is no lib{library}.a in {}, which FUMITORYGATE_LIB_DIR names", folder.display()))
        }))
    } else {
        Found::in_folder(&carried, library)
            .or_else(|| if is_native { from_checkout(&here.join(".."), library) } else { None })
            .or_else(|| if is_native && !own_heap { from_pkg_config(&here) } else { None })
    };
    match found {
        Some(found) => {
            check(&found);
            link(&found);
        }
        None if env::var_os("DOCS_RS").is_some() => {}
        None => stop(&lacks(&here, library, &target)),
    }
}

fn text(name: &str) -> String {
    env::var(name).unwrap_or_else(|_| stop(&format!("cargo sets {name}")))
}

fn architecture(target: &str) -> Option<&str> {
    target.split('-').next()
}

/// Ends the build by one sentence. Cargo fails for it, and adds all that was printed where a script itself fails.
fn stop(why: &str) -> ! {
    println!("cargo::error={why}");
    exit(0);
}

/// What a build without a library is told.
fn lacks(here: &Path, library: &str, target: &str) -> String {
    if here.join("../c/Makefile").exists() {
        return format!(
            "there is no lib{library}.a for {target}: `make -C c` at the top of the checkout proves and builds it, FUMITORYGATE_TRY=1 \
             builds an unproved one in minutes, and FUMITORYGATE_LIB_DIR names a folder that has it"
        );
    }
    format!(
        "this package carries no library for {target}: put lib{library}.a and its file .proof, of a release or of `make carry` in \
         the checkout, into lib/{target} beside its Cargo.toml, or have FUMITORYGATE_LIB_DIR name their folder"
    )
}

/// Refuses a library that isn't the one that was proved, and warns of one that no proof made.
fn check(found: &Found) {
    println!("cargo::rerun-if-changed={}", found.proof.display());
    let Ok(proof) = fs::read_to_string(&found.proof) else {
        return warn_of(found, &format!("there is no {}", found.proof.display()));
    };
    let mut lines = proof.lines();
    if !lines.next().is_some_and(|verdict| verdict.starts_with("logic=proved ")) {
        stop(&format!("{} doesn't begin with logic=proved: no proof made this library", found.proof.display()));
    }
    let told = lines.next().and_then(|line| line.split_whitespace().next()).unwrap_or("");
    let octets = fs::read(found.archive()).unwrap_or_else(|why| stop(&format!("{}: {why}", found.archive().display())));
    if sha256::hex(&octets) != told {
        stop(&format!(
            "{} isn't the library that was proved: {} has another checksum",
            found.archive().display(),
            found.proof.display()
        ));
    }
}

fn warn_of(found: &Found, why: &str) {
    println!("cargo::warning=UNPROVED: no proof is known of {}: {why}", found.archive().display());
}

fn link(found: &Found) {
    println!("cargo::rustc-link-search=native={}", found.folder.display());
    println!("cargo::rustc-link-lib=static={}", found.name);
}

/// Runs `make` in the folder `c` of a checkout.
fn make(c: &Path, what: &str) {
    let done = Command::new("make").arg("-C").arg(c).arg(what).stdout(std::process::Stdio::null()).status();
    if !done.is_ok_and(|status| status.success()) {
        stop(&format!("`make -C {} {what}` failed: it needs the Rattle kit's rt, and a C compiler", c.display()));
    }
}

/// The unproved library of a checkout, which is built first.
fn unproved(top: &Path, library: &str) -> Option<Found> {
    let c = top.join("c");
    if !c.join("Makefile").exists() {
        return None;
    }
    make(&c, "unproved");
    for name in fs::read_dir(top.join("crates")).into_iter().flatten().flatten() {
        println!("cargo::rerun-if-changed={}", name.path().join("src").display());
    }
    Found::in_folder(&c.join("build/unproved"), &format!("{library}_unproved"))
}

/// A checkout's library, if it is built.
fn from_checkout(top: &Path, library: &str) -> Option<Found> {
    let c = top.join("c");
    if !c.join("Makefile").exists() {
        return None;
    }
    if env::var_os("FUMITORYGATE_MAKE").is_some() {
        make(&c, "build/libiface.a");
    }
    Found::in_folder(&c.join("build"), library)
}

/// An installed library, whose header has to be the one that the declarations were made from.
fn from_pkg_config(here: &Path) -> Option<Found> {
    let folder = pkg_config("--variable=prefix").map(PathBuf::from)?;
    let header = fs::read_to_string(folder.join("include/iface.h")).ok()?;
    let sum = format!("Sum of the header: {:#018x}", header_sum(&header));
    let declarations = fs::read_to_string(here.join("src/sys.rs")).expect("src/sys.rs");
    if !declarations.contains(&sum) {
        stop(&format!(
            "the library in {} is of another version: its iface.h isn't the one that this crate was made from",
            folder.display()
        ));
    }
    Found::in_folder(&folder.join("lib"), "iface")
}

fn pkg_config(what: &str) -> Option<String> {
    let told = Command::new("pkg-config").args([what, "iface"]).output().ok()?;
    let text = String::from_utf8(told.stdout).ok()?;
    told.status.success().then(|| text.trim().to_string())
}

/// FNV-1a of a header's declarations, without comments and with one blank between words, as `make_sys.py` computes it.
fn header_sum(header: &str) -> u64 {
    let mut plain = String::new();
    for (place, part) in header.split("/*").enumerate() {
        plain.push(' ');
        plain.push_str(if place == 0 { part } else { part.split_once("*/").map_or("", |(_, rest)| rest) });
    }
    let words: Vec<&str> = plain.split_whitespace().collect();
    let fold = |sum: u64, octet: &u8| (sum ^ u64::from(*octet)).wrapping_mul(0x100_0000_01b3);
    words.join(" ").as_bytes().iter().fold(0xcbf2_9ce4_8422_2325, fold)
}

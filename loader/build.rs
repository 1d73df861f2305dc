// Finds libarchwend.a, or lets the proof kit write it, and links a copy. Where that can't be done the crate still builds as
// documentation: src/lib.rs includes linked.rs, which then has the reason as a compile error.
use std::path::{Path, PathBuf};
use std::process::{Command, Stdio};
use std::{env, fs, io};

const ARCHIVE: &str = "libarchwend.a";
const HEADER: &str = "include/archwend.h";
/// The crate that is the archive, by the kit's name for it.
const CRATE: &str = "crates/archwend_c";
const MADE: &str = "out/libarchwend_c.a";
/// What rt is to do there: code for every x86-64 processor.
const LIB: [&str; 3] = ["lib", "--cpu", "x86-64"];
/// What a crate is made from. Beside it the kit keeps its work, in out/.
const PARTS: [&str; 3] = ["src", "specs", "proofs"];

fn main() {
    for name in ["ARCHWEND_LIB_DIR", "DOCS_RS"] {
        println!("cargo:rerun-if-env-changed={name}");
    }
    watch(Path::new("build.rs"));
    let out = PathBuf::from(env::var_os("OUT_DIR").expect("cargo sets OUT_DIR"));
    // There only documentation is made.
    let linked = if env::var_os("DOCS_RS").is_some() { Ok(()) } else { link(&out) };
    let text = linked.map_or_else(|why| format!("compile_error!({:?});\n", format!("archwend: {why}")), |()| String::new());
    if !text.is_empty() {
        // What is not there is looked for at each build.
        watch(&out.join("not linked"));
    }
    fs::write(out.join("linked.rs"), text).expect("OUT_DIR can be written");
}

fn watch(path: &Path) {
    println!("cargo:rerun-if-changed={}", path.display());
}

fn link(out: &Path) -> Result<(), String> {
    check_target()?;
    let archive = archive(out)?;
    fs::copy(&archive, out.join(ARCHIVE)).map_err(|e| format!("{} can't be copied: {e}", archive.display()))?;
    println!("cargo:rustc-link-search=native={}", out.display());
    println!("cargo:rustc-link-lib=static=archwend");
    Ok(())
}

fn check_target() -> Result<(), String> {
    let cfg = |name: &str| env::var(format!("CARGO_CFG_TARGET_{name}")).unwrap_or_default();
    let fits = cfg("ARCH") == "x86_64" && cfg("POINTER_WIDTH") == "64" && ["linux", "none"].contains(&cfg("OS").as_str());
    if fits {
        return Ok(());
    }
    let target = env::var("TARGET").unwrap_or_default();
    Err(format!(
        "the proved library is x86-64 ELF code for Linux and for bare machines, and the target is {target}: build with --target \
         x86_64-unknown-linux-gnu, x86_64-unknown-none or one like them"
    ))
}

/// The archive to be linked: the one that is named; or the one of the repository or the bundle whose loader/ this is.
fn archive(out: &Path) -> Result<PathBuf, String> {
    let here = PathBuf::from(env::var_os("CARGO_MANIFEST_DIR").expect("cargo sets CARGO_MANIFEST_DIR"));
    let here = fs::canonicalize(&here).unwrap_or(here);
    if let Some(dir) = env::var_os("ARCHWEND_LIB_DIR").filter(|d| !d.is_empty()) {
        let archive = here.join(&dir).join(ARCHIVE);
        watch(&archive);
        let missing = || format!("ARCHWEND_LIB_DIR is {}, and there is no {ARCHIVE} in it", here.join(&dir).display());
        return archive.exists().then(|| archive.clone()).ok_or_else(missing);
    }
    let root = here.parent().filter(|p| fs::canonicalize(p.join("loader")).map_or(false, |l| l == here));
    let has = |names: &[&str]| root.filter(|r| names.iter().all(|n| r.join(n).exists()));
    if let Some(root) = has(&["crates.txt", CRATE, HEADER]) {
        return prove(root, out);
    }
    if let Some(root) = has(&["lib/libarchwend.a", HEADER]) {
        let archive = root.join("lib").join(ARCHIVE);
        watch(&archive);
        return Ok(archive);
    }
    Err(format!(
        "{} is neither in Archwend's repository nor in a bundle of it, so the proved library is not at hand: set ARCHWEND_LIB_DIR \
         to a folder that has {ARCHIVE}",
        here.display()
    ))
}

/// Lets the kit write the archive as the crates now are; it proves what changed. Not the archive is watched, which is rewritten.
fn prove(root: &Path, out: &Path) -> Result<PathBuf, String> {
    let crates = root.join("crates");
    let parts = parts_of(&crates).map_err(|e| format!("{} can't be read: {e}", crates.display()))?;
    for name in parts.iter().map(PathBuf::as_path).chain([Path::new("crates.txt"), Path::new(HEADER)]) {
        watch(&root.join(name));
    }
    let own = out.join("repository");
    let root = if can_write(&root.join(CRATE).join("out")) {
        root
    } else {
        copy_repository(root, &own, &parts).map_err(|e| format!("the repository can't be copied to {}: {e}", own.display()))?;
        &own
    };
    let folder = root.join(CRATE);
    match Command::new("rt").args(LIB).current_dir(&folder).stdin(Stdio::null()).output() {
        Ok(o) if o.status.success() => Ok(folder.join(MADE)),
        Ok(o) => {
            let said = [o.stdout, o.stderr].concat();
            let said = String::from_utf8_lossy(&said);
            Err(format!("`rt {}` in {} ended with {}:\n{said}", LIB.join(" "), folder.display(), o.status))
        }
        Err(e) => Err(format!(
            "the proof kit, which writes {ARCHIVE}, can't be run (rt: {e}): install the kit, or set ARCHWEND_LIB_DIR to the \
             folder lib of a bundle"
        )),
    }
}

fn can_write(folder: &Path) -> bool {
    let probe = folder.join(format!("archwend-{}", std::process::id()));
    fs::create_dir_all(folder).and_then(|()| fs::write(&probe, "")).and_then(|()| fs::remove_file(&probe)).is_ok()
}

/// The folders that crates are made from, as crates/NAME/src.
fn parts_of(crates: &Path) -> io::Result<Vec<PathBuf>> {
    let mut found = Vec::new();
    for entry in fs::read_dir(crates)? {
        let entry = entry?;
        let name = Path::new("crates").join(entry.file_name());
        found.extend(PARTS.iter().filter(|p| entry.path().join(p).is_dir()).map(|p| name.join(p)));
    }
    found.sort();
    Ok(found)
}

/// A copy without what was there before, but for what the kit keeps of it.
fn copy_repository(from: &Path, to: &Path, parts: &[PathBuf]) -> io::Result<()> {
    for part in parts_of(&to.join("crates")).unwrap_or_default() {
        fs::remove_dir_all(to.join(part))?;
    }
    for part in parts {
        copy_folder(&from.join(part), &to.join(part))?;
    }
    fs::write(to.join("crates.txt"), fs::read(from.join("crates.txt"))?)
}

/// Contents alone: what can't be written there may be written here.
fn copy_folder(from: &Path, to: &Path) -> io::Result<()> {
    fs::create_dir_all(to)?;
    for entry in fs::read_dir(from)? {
        let entry = entry?;
        let new = to.join(entry.file_name());
        if fs::metadata(entry.path())?.is_dir() {
            copy_folder(&entry.path(), &new)?;
        } else {
            fs::write(new, fs::read(entry.path())?)?;
        }
    }
    Ok(())
}

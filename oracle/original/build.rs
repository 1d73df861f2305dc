// Compiles the original from where it lies, after comparing its checksum. Nothing of it is kept in the repository.
use std::path::{Path, PathBuf};
use std::process::Command;
use std::{env, fs};

fn sha256(file: &Path) -> String {
    let out = Command::new("sha256sum").arg(file).output().expect("sha256sum (coreutils) is needed");
    String::from_utf8_lossy(&out.stdout).split_whitespace().next().unwrap_or("").trim_start_matches('\\').to_string()
}

fn main() {
    let here = PathBuf::from(env::var("CARGO_MANIFEST_DIR").unwrap());
    let shared = env::var("ARCHWEND_SHARED").map(PathBuf::from).unwrap_or_else(|_| here.join("../../../shared"));
    println!("cargo:rerun-if-env-changed=ARCHWEND_SHARED");
    println!("cargo:rerun-if-changed=SHA256");
    println!("cargo:rerun-if-changed=build.rs");
    let src = shared.join("docs/src/src");
    let recorded = fs::read_to_string(here.join("SHA256")).expect("SHA256");
    for line in recorded.lines() {
        let mut words = line.split_whitespace();
        let (want, name) = (words.next().unwrap(), words.next().unwrap());
        let file = src.join(name);
        if !file.exists() {
            panic!("the original is not here: {} (ARCHWEND_SHARED names the folder that has docs/src)", file.display());
        }
        println!("cargo:rerun-if-changed={}", file.display());
        let have = sha256(&file);
        if have != want {
            panic!("{}: its checksum is {have}, recorded is {want}", file.display());
        }
        println!("cargo:rustc-env=ORIGINAL_{}={have}", name.trim_end_matches(".rs").to_uppercase());
    }
    let out = PathBuf::from(env::var("OUT_DIR").unwrap());
    let table = fs::canonicalize(src.join("page_table.rs")).unwrap();
    // A file of its own, since `include!` takes no inner doc comments.
    fs::write(out.join("module.rs"), format!("#[path = {:?}]\npub mod page_table;\n", table.display().to_string())).unwrap();
    // lib.rs needs more crates than are stood in for: the one function asked of it is cut out.
    let lib = fs::read_to_string(src.join("lib.rs")).unwrap();
    let from = lib.find("\nfn extract_individual_masks").expect("extract_individual_masks in lib.rs") + 1;
    let to = from + lib[from..].find("\n}\n").unwrap() + 3;
    fs::write(out.join("masks.rs"), format!("pub {}", &lib[from..to])).unwrap();
}

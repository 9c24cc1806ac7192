//! Links the static libraries of the crates `export_calls` and `export_steps`: those in the folder that `CELADONSAW_LIB` names, or
//! those that `../libraries` makes.
use std::path::{Path, PathBuf};
use std::process::Command;
use std::{env, fs, process};

const LIBRARIES: [&str; 2] = ["export_calls", "export_steps"];

fn fail(message: &str) -> ! {
    println!("cargo::error={message}");
    process::exit(1)
}

fn built(root: &Path) -> PathBuf {
    println!("cargo::rerun-if-changed={}", root.join("crates.txt").display());
    for part in ["src", "specs", "proofs"] {
        for each in fs::read_dir(root.join("crates")).unwrap() {
            let folder = each.unwrap().path().join(part);
            if folder.is_dir() {
                println!("cargo::rerun-if-changed={}", folder.display());
            }
        }
    }
    match Command::new(root.join("bindings/libraries")).output() {
        Ok(done) if done.status.success() => root.join("target/staticlib"),
        Ok(done) => fail(&format!(
            "rt lib: {}; or set CELADONSAW_LIB to the folder of the static libraries",
            String::from_utf8_lossy(&done.stderr).trim().replace('\n', "; ")
        )),
        Err(error) => fail(&format!("bindings/libraries: {error}")),
    }
}

fn main() {
    println!("cargo::rerun-if-env-changed=CELADONSAW_LIB");
    let here = PathBuf::from(env::var("CARGO_MANIFEST_DIR").unwrap());
    let folder = match env::var("CELADONSAW_LIB") {
        Ok(given) => {
            println!("cargo::rerun-if-changed={given}");
            PathBuf::from(given)
        }
        Err(_) => built(&here.join("../..")),
    };
    for library in LIBRARIES {
        let file = folder.join(format!("lib{library}.a"));
        if !file.is_file() {
            fail(&format!("no {}", file.display()));
        }
        println!("cargo::rustc-link-lib=static={library}");
    }
    println!("cargo::rustc-link-search=native={}", folder.canonicalize().unwrap().display());
}

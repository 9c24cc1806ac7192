//! Names the two original driver files as modules, by path, so that they are compiled unchanged.
use std::path::PathBuf;
use std::{env, fs, process};

const DEFAULT_SOURCES: &str = "../../shared/docs/src/src";

fn main() {
    println!("cargo::rerun-if-env-changed=I2C_SOURCES");
    let given = env::var("I2C_SOURCES").unwrap_or_else(|_| DEFAULT_SOURCES.to_string());
    let folder = PathBuf::from(env::var("CARGO_MANIFEST_DIR").unwrap()).join(given);
    let mut modules = String::new();
    for name in ["i2c", "i2c_slave"] {
        let file = folder.join(name).with_extension("rs");
        println!("cargo::rerun-if-changed={}", file.display());
        let Ok(file) = file.canonicalize() else {
            println!("cargo::error=Rust source missing: {} (set I2C_SOURCES to its folder)", file.display());
            process::exit(3);
        };
        modules += &format!("#[path = {file:?}]\n#[allow(dead_code)]\nmod {name};\n");
    }
    fs::write(PathBuf::from(env::var("OUT_DIR").unwrap()).join("drivers.rs"), modules).unwrap();
}

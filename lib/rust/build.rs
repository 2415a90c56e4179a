//! Finds libdimacs.a: in the folder that DIMACS_LIB_DIR names, else where pkg-config finds `dimacs`, else in the repository
//! around this crate, where `make rust` builds it, unproved. Without GNU's objcopy the names in cargo's archive clash with
//! those of a program in Rust, so its dynamic library is taken, which `cargo run` and `cargo test` find.

use std::path::{Path, PathBuf};
use std::process::{exit, Command};
use std::{env, fs};

/// The repository, if this crate lies in it.
const TOP: &str = concat!(env!("CARGO_MANIFEST_DIR"), "/../..");

fn main() {
    println!("cargo:rerun-if-env-changed=DIMACS_LIB_DIR");
    println!("cargo:rerun-if-env-changed=PKG_CONFIG_PATH");
    let (library, kind) = match env::var_os("DIMACS_LIB_DIR") {
        Some(named) => (absolute(Path::new(&named)).join("libdimacs.a"), "static"),
        None => installed(),
    };
    if !library.is_file() {
        fail(&format!("{} isn't there", library.display()));
    }
    println!("cargo:rerun-if-changed={}", library.display());
    println!("cargo:rustc-link-search=native={}", library.parent().unwrap_or(&library).display());
    println!("cargo:rustc-link-lib={kind}=dimacs");
}

/// A folder by a name that may begin at this crate's own.
fn absolute(folder: &Path) -> PathBuf {
    fs::canonicalize(folder).unwrap_or_else(|it| fail(&format!("DIMACS_LIB_DIR is {}: {it}", folder.display())))
}

/// The library that `make install` wrote, by pkg-config.
fn installed() -> (PathBuf, &'static str) {
    let asked = Command::new("pkg-config").args(["--variable=libdir", "dimacs"]).output();
    match asked {
        Ok(it) if it.status.success() => {
            (Path::new(String::from_utf8_lossy(&it.stdout).trim()).join("libdimacs.a"), "static")
        }
        _ if !Path::new(TOP).join("tools/rust_build.py").is_file() => {
            fail("name the folder of libdimacs.a by DIMACS_LIB_DIR, or install it so that pkg-config finds dimacs")
        }
        _ if cfg!(target_os = "linux") && Command::new("objcopy").arg("--version").output().is_ok() => {
            run("make", &["-C", TOP, "build/rust/libdimacs.a"]);
            (Path::new(TOP).join("build/rust/libdimacs.a"), "static")
        }
        _ => (dynamic(), "dylib"),
    }
}

/// The dynamic library as cargo makes it, copied to where cargo looks for what it runs.
fn dynamic() -> PathBuf {
    let built = Path::new(TOP).join("build/rust");
    let script = Path::new(TOP).join("tools/rust_build.py");
    run(if cfg!(windows) { "python" } else { "python3" }, &[&script.to_string_lossy(), &built.to_string_lossy()]);
    let folder = PathBuf::from(env::var_os("OUT_DIR").unwrap_or_default());
    let names = ["libdimacs.so", "libdimacs.dylib", "dimacs.dll", "dimacs.dll.lib", "libdimacs.dll.a"];
    let made: Vec<_> = names.iter().filter(|it| built.join(it).is_file()).map(|it| folder.join(it)).collect();
    for it in &made {
        let from = built.join(it.file_name().unwrap_or_default());
        fs::copy(&from, it).unwrap_or_else(|why| fail(&format!("{}: {why}", from.display())));
    }
    made.into_iter().next().unwrap_or_else(|| fail("make rust made no dynamic library"))
}

/// Has another cargo build the library. What this one says to a script isn't for that one.
fn run(program: &str, words: &[&str]) {
    let mut command = Command::new(program);
    command.args(words);
    for (name, _) in env::vars_os() {
        let text = name.to_string_lossy();
        if ["CARGO", "MAKE", "RUSTC", "RUSTFLAGS"].iter().any(|it| text.starts_with(it)) && text != "CARGO_HOME" {
            command.env_remove(&name);
        }
    }
    match command.status() {
        Ok(it) if it.success() => (),
        _ => fail("make rust failed"),
    }
}

fn fail(why: &str) -> ! {
    eprintln!("{why}");
    exit(1);
}

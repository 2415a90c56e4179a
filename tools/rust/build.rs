//! Names the compiler, for the version that the program and the library print.
use std::process::Command;
use std::{env, str};

fn main() {
    let rustc = env::var_os("RUSTC").unwrap_or("rustc".into());
    let said = Command::new(rustc).arg("--version").output().map(|it| it.stdout).unwrap_or_default();
    let mut words = str::from_utf8(&said).unwrap_or("").split_whitespace();
    println!("cargo::rustc-env=COMPILER=rustc {}", words.nth(1).unwrap_or("of no known version"));
    println!("cargo::rerun-if-changed=build.rs");
}

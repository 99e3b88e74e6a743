//! The program `copies` counts what is copied by the C library's functions: the
//! linker sends their callers to it. The inline functions of `lsq.h` are
//! compiled once, so that Rust can call them.

use std::env;
use std::path::{Path, PathBuf};
use std::process::Command;

fn main() {
    println!("cargo:rerun-if-changed=build.rs");
    let wrapped = "-Wl,--wrap=memcpy,--wrap=memmove,--wrap=memset";
    println!("cargo:rustc-link-arg-bin=copies={wrapped}");
    compile_header();
}

fn compile_header() {
    let folder = Path::new(env!("CARGO_MANIFEST_DIR"));
    let source = folder.join("c/header.c");
    let include = folder.join("../bindings/c");
    println!("cargo:rerun-if-changed={}", source.display());
    println!("cargo:rerun-if-changed={}", include.join("lsq.h").display());
    let out = PathBuf::from(env::var_os("OUT_DIR").expect("cargo sets OUT_DIR"));
    let object = out.join("header.o");
    let mut gcc = Command::new("gcc");
    gcc.args([
        "-std=c11",
        "-Wall",
        "-Wextra",
        "-Werror",
        "-pedantic",
        "-O2",
        "-fPIC",
        "-c",
    ]);
    run(gcc
        .arg("-I")
        .arg(include)
        .arg("-o")
        .arg(&object)
        .arg(source));
    let archive = out.join("libheader.a");
    run(Command::new("ar").arg("rcs").arg(archive).arg(object));
    println!("cargo:rustc-link-search=native={}", out.display());
    println!("cargo:rustc-link-lib=static=header");
}

fn run(command: &mut Command) {
    let ended = command.status();
    assert!(
        ended.is_ok_and(|status| status.success()),
        "failed: {command:?}"
    );
}

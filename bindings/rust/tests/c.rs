//! C programs with the header and the library: compiled by `cc` with all warnings as errors, and run; and the header alone, compiled as C++.

use std::fs;
use std::path::{Path, PathBuf};
use std::process::Command;

const WARNINGS: [&str; 6] = ["-Wall", "-Wextra", "-pedantic", "-Wconversion", "-Wshadow", "-Werror"];

fn repository() -> PathBuf {
    Path::new(env!("CARGO_MANIFEST_DIR")).join("../..")
}

fn succeed(compiler: &mut Command) {
    let compiled = compiler.output().expect("a compiler");
    assert!(compiled.status.success(), "{}", String::from_utf8_lossy(&compiled.stderr));
}

/// Compiles `tests/c/NAME.c`, which is told the crate's version, and runs it: it prints `ok`.
fn compile_and_run(name: &str) {
    let program = Path::new(env!("CARGO_TARGET_TMPDIR")).join(name);
    succeed(
        Command::new("cc")
            .args(["-std=c99", "-O2"])
            .args(WARNINGS)
            .arg(concat!("-DCARGO_PKG_VERSION=\"", env!("CARGO_PKG_VERSION"), "\""))
            .arg("-I")
            .arg(repository().join("include"))
            .arg(Path::new(env!("CARGO_MANIFEST_DIR")).join("tests/c").join(name).with_extension("c"))
            .arg(Path::new(env!("VANDZULGE_LIB_DIR")).join("libvandzulge.a"))
            .arg("-o")
            .arg(&program),
    );
    let ran = Command::new(&program).output().expect("the C program");
    assert_eq!(String::from_utf8_lossy(&ran.stdout), "ok\n");
    assert!(ran.status.success());
}

#[test]
fn every_call_from_c() {
    compile_and_run("smoke");
}

#[test]
fn every_call_by_the_handle() {
    compile_and_run("handle");
}

/// Where there is a C++ compiler.
#[test]
fn the_header_is_cpp_too() {
    if Command::new("c++").arg("--version").output().is_err() {
        println!("no c++, nothing tested");
        return;
    }
    let source = Path::new(env!("CARGO_TARGET_TMPDIR")).join("header.cpp");
    fs::write(&source, "#include \"vandzulge.h\"\n").expect("a file to compile");
    succeed(Command::new("c++").args(["-std=c++11", "-O2", "-fsyntax-only"]).args(WARNINGS).arg("-I").arg(repository().join("include")).arg(&source));
}

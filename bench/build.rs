//! Compiles the same algorithm in C.

use std::process::Command;

fn main() {
    let out = std::env::var("OUT_DIR").expect("set by cargo");
    println!("cargo:rerun-if-changed=c/plain.c");
    println!("cargo:rerun-if-changed=../include/dacom450.h");
    run(Command::new("cc")
        .args([
            "-std=c11",
            "-O3",
            "-Wall",
            "-Wextra",
            "-Werror",
            "-I../include",
            "-c",
            "c/plain.c",
            "-o",
        ])
        .arg(format!("{out}/plain.o")));
    run(Command::new("ar")
        .arg("rcs")
        .arg(format!("{out}/libplain.a"))
        .arg(format!("{out}/plain.o")));
    println!("cargo:rustc-link-search=native={out}");
    println!("cargo:rustc-link-lib=static=plain");
}

fn run(command: &mut Command) {
    let status = command.status().expect("a C compiler and ar");
    assert!(status.success(), "{command:?}");
}

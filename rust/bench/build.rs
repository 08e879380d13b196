// With the feature `flint`, compiles flint/newton.c and links FLINT.

use std::env;
use std::path::Path;
use std::process::Command;

fn main() {
    println!("cargo:rerun-if-changed=flint/newton.c");
    if env::var_os("CARGO_FEATURE_FLINT").is_none() {
        return;
    }
    let out = env::var("OUT_DIR").expect("cargo says where to write");
    let object = Path::new(&out).join("newton.o");
    let archive = Path::new(&out).join("libflint_newton.a");
    run(Command::new("gcc")
        .args(["-std=c99", "-O3", "-fPIC", "-c", "flint/newton.c", "-o"])
        .arg(&object));
    run(Command::new("ar").arg("rcs").arg(&archive).arg(&object));
    println!("cargo:rustc-link-search=native={out}");
    println!("cargo:rustc-link-lib=static=flint_newton");
    println!("cargo:rustc-link-lib=flint");
}

fn run(command: &mut Command) {
    let status = command.status();
    assert!(matches!(status, Ok(done) if done.success()), "{command:?}");
}

//! Links the host's builds of what is timed, which `bench/run` makes first, and those other
//! libraries that are installed.

use std::env::var;
use std::process::Command;

/// Each other library: the file of its calls, and the name to link.
const OTHERS: [(&str, &str); 3] = [
    ("mbedtls", "mbedcrypto"),
    ("bearssl", "bearssl"),
    ("tomcrypt", "tomcrypt"),
];

fn main() {
    let libraries = concat!(env!("CARGO_MANIFEST_DIR"), "/../target/host");
    println!("cargo:rustc-link-search=native={libraries}");
    for library in ["bench_cipher", "bench_records"] {
        println!("cargo:rustc-link-lib=static={library}");
        println!("cargo:rerun-if-changed={libraries}/lib{library}.a");
    }
    println!("cargo:rerun-if-changed=others");
    let made = var("OUT_DIR").expect("cargo's folder");
    println!("cargo:rustc-link-search=native={made}");
    for (name, library) in OTHERS {
        println!("cargo:rustc-check-cfg=cfg({name})");
        if compiled(name, &made) {
            println!("cargo:rustc-cfg={name}");
            println!("cargo:rustc-link-lib=static=others_{name}");
            println!("cargo:rustc-link-lib={library}");
        }
    }
}

/// Whether the calls of a library could be compiled: they cannot where it is not installed.
fn compiled(name: &str, made: &str) -> bool {
    let object = format!("{made}/{name}.o");
    let succeeds = |command: &mut Command| command.output().is_ok_and(|o| o.status.success());
    succeeds(Command::new("gcc").args(["-O3", "-c", &format!("others/{name}.c"), "-o", &object]))
        && succeeds(Command::new("ar").args([
            "rcs",
            &format!("{made}/libothers_{name}.a"),
            &object,
        ]))
}

//! The crate compiles where there is nothing but `core`, and where its archive is missing cargo
//! says what makes it.

use std::fs;
use std::path::{Path, PathBuf};
use std::process::{Command, Output};

const CRATE: &str = env!("CARGO_MANIFEST_DIR");

/// An empty folder of this name, for one test.
fn empty_folder(name: &str) -> PathBuf {
    let folder = Path::new(env!("CARGO_TARGET_TMPDIR")).join(name);
    if folder.exists() {
        fs::remove_dir_all(&folder).unwrap();
    }
    fs::create_dir_all(&folder).unwrap();
    folder
}

/// Copies the files of a folder, but none of the folders in it.
fn copy_files(from: &Path, to: &Path) {
    fs::create_dir_all(to).unwrap();
    for file in fs::read_dir(from).unwrap().map(Result::unwrap) {
        if file.file_type().unwrap().is_file() {
            fs::copy(file.path(), to.join(file.file_name())).unwrap();
        }
    }
}

fn said(output: &Output) -> String {
    String::from_utf8_lossy(&output.stderr).into_owned()
}

#[test]
fn core_alone() {
    let printed = Command::new("rustc")
        .args(["--print", "target-libdir"])
        .output()
        .unwrap();
    let theirs = PathBuf::from(String::from_utf8(printed.stdout).unwrap().trim());
    let target = theirs.parent().unwrap().file_name().unwrap();

    // A toolchain of which nothing is left but `core`.
    let folder = empty_folder("core_alone");
    let ours = folder.join("lib/rustlib").join(target).join("lib");
    fs::create_dir_all(&ours).unwrap();
    for file in fs::read_dir(&theirs).unwrap().map(Result::unwrap) {
        let name = file.file_name().into_string().unwrap();
        if name.starts_with("libcore-") || name.starts_with("libcompiler_builtins-") {
            fs::copy(file.path(), ours.join(name)).unwrap();
        }
    }
    let compile = |source: &Path| {
        Command::new("rustc")
            .args([
                "--edition",
                "2021",
                "--crate-type",
                "lib",
                "--emit",
                "metadata",
            ])
            .arg("--sysroot")
            .arg(&folder)
            .arg("--out-dir")
            .arg(&folder)
            .arg(source)
            .output()
            .unwrap()
    };
    let with_std = folder.join("with_std.rs");
    fs::write(&with_std, "#![no_std]\nextern crate std;\n").unwrap();
    assert!(said(&compile(&with_std)).contains("can't find crate for `std`"));
    let output = compile(&Path::new(CRATE).join("src/lib.rs"));
    assert!(output.status.success(), "{}", said(&output));
}

#[test]
fn archive_missing() {
    let folder = empty_folder("archive_missing");
    let copy = folder.join("rust");
    copy_files(Path::new(CRATE), &copy);
    copy_files(&Path::new(CRATE).join("src"), &copy.join("src"));
    let check = || {
        Command::new(env!("CARGO"))
            .args(["check", "--offline", "--manifest-path"])
            .arg(copy.join("Cargo.toml"))
            .env("CARGO_TARGET_DIR", folder.join("made"))
            .output()
            .unwrap()
    };
    let output = check();
    assert!(!output.status.success());
    let line = "libewplander.a is missing: run `tools/host-build ewplander` first";
    let told = |text: &str| {
        text.lines()
            .any(|l| l.starts_with("error:") && l.ends_with(line))
    };
    assert!(told(&said(&output)), "{}", said(&output));

    copy_files(
        &Path::new(CRATE).join("../target/host"),
        &folder.join("target/host"),
    );
    let output = check();
    assert!(output.status.success(), "{}", said(&output));
}

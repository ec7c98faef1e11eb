//! The command at the root of a clone, beside a toolchain and a cargo that only pretend: what it proves and builds, when it does so, and what it says meanwhile.

mod common;

use std::fs;
use std::os::unix::fs::PermissionsExt;
use std::path::Path;
use std::process::Command;
use std::thread::sleep;
use std::time::Duration;

use common::{root, run, Called, Folder};

/// Proves one crate after the other, each for as long as the file `slow` says, and names it before, as the toolchain does; then it writes the archive.
const RT: &str = r#"#!/bin/sh
folder=${PWD##*/}
cd ../..
echo "rt $* in $folder" >> calls
for crate in base side gorzhani; do
  echo "rt: chose --jobs 2 for $crate"
  sleep "$(cat slow 2> /dev/null || echo 0)"
  [ -e broken ] && { echo "goal: a fact that is false"; exit 1; }
  echo "logic=proved functions=1"
done
mkdir -p crates/gorzhani/out
echo archive > crates/gorzhani/out/libgorzhani.a
"#;

/// Builds a program that tells its words.
const CARGO: &str = r##"#!/bin/sh
echo "cargo $1" >> calls
mkdir -p host/desk/target/release
printf '#!/bin/sh\nfor word; do echo "<$word>"; done\nexit 1\n' > host/desk/target/release/gorzhani
chmod +x host/desk/target/release/gorzhani
"##;

fn executable(path: &Path) {
    fs::set_permissions(path, fs::Permissions::from_mode(0o755))
        .expect("it can be made executable");
}

/// A clone with three crates under the library and one beside them.
fn clone() -> Folder {
    let folder = Folder::new();
    let command = fs::read(root().join("gorzhani")).expect("the command is there");
    executable(&folder.write("a clone/gorzhani", command));
    folder.write(
        "a clone/crates.txt",
        "# crates\nbase:\nside: base\nrows: side\ngorzhani staticlib: side\n",
    );
    for name in ["base", "side", "rows", "gorzhani"] {
        folder.write(&format!("a clone/crates/{name}/src/lib.rt"), "");
    }
    for name in [
        "desk/src/main.rs",
        "desk/Cargo.toml",
        "desk/Cargo.lock",
        "gorzhani/src/lib.rs",
        "gorzhani/build.rs",
        "gorzhani/Cargo.toml",
    ] {
        folder.write(&format!("a clone/host/{name}"), "");
    }
    executable(&folder.write("bin/rt", RT));
    executable(&folder.write("bin/cargo", CARGO));
    folder
}

/// Runs the command from outside the clone.
fn started(folder: &Folder, words: &[&str]) -> Called {
    let mut command = Command::new(folder.path("a clone/gorzhani"));
    let path = format!("{}:/usr/bin:/bin", folder.path("bin").display());
    command.args(words).current_dir(&folder.0).env("PATH", path);
    run(command, b"")
}

/// What was called since the last time.
fn calls(folder: &Folder) -> String {
    let calls = fs::read_to_string(folder.path("a clone/calls")).unwrap_or_default();
    let _ = fs::remove_file(folder.path("a clone/calls"));
    calls
}

#[test]
fn proves_builds_and_runs() {
    let folder = clone();
    // The command looks every second.
    let slow = folder.write("a clone/slow", "2.5");
    let first = started(&folder, &["judge", "a page.md"]);
    assert_eq!((first.status, &first.out[..]), (1, "<judge>\n<a page.md>\n"), "{}", first.errors);
    for words in [
        "gorzhani: proving the library: 3 of 3 crates left, now base\n",
        "gorzhani: proving the library: 2 of 3 crates left, now side\n",
        "gorzhani: proving the library: 1 of 3 crates left, now gorzhani\n",
        "gorzhani: building the program\n",
    ] {
        assert!(first.errors.contains(words), "{words} in {}", first.errors);
    }
    assert_eq!(calls(&folder), "rt lib in gorzhani\ncargo build\n");
    fs::remove_file(slow).expect("it was there");

    let second = started(&folder, &[]);
    assert_eq!((second.status, &second.out[..], &second.errors[..]), (1, "", ""));
    assert_eq!(calls(&folder), "");

    // What has changed is built again, and nothing else.
    sleep(Duration::from_millis(20));
    folder.write("a clone/crates/rows/src/lib.rt", "// changed");
    folder.write("a clone/crates/side/out/kept", "by a later check");
    started(&folder, &[]);
    assert_eq!(calls(&folder), "");
    folder.write("a clone/host/desk/src/main.rs", "// changed");
    started(&folder, &[]);
    assert_eq!(calls(&folder), "cargo build\n");
    sleep(Duration::from_millis(20));
    folder.write("a clone/crates/side/src/lib.rt", "// changed");
    started(&folder, &[]);
    assert_eq!(calls(&folder), "rt lib in gorzhani\ncargo build\n");
}

#[test]
fn a_library_that_is_not_proved() {
    let folder = clone();
    folder.write("a clone/broken", "");
    let called = started(&folder, &["search"]);
    assert_eq!((called.status, &called.out[..]), (2, ""));
    assert!(called.errors.contains("goal: a fact that is false"), "{}", called.errors);
    assert!(called.errors.contains("the library isn't proved"), "{}", called.errors);
    assert_eq!(calls(&folder), "rt lib in gorzhani\n");
}

#[test]
fn no_toolchain() {
    let folder = clone();
    fs::remove_file(folder.path("bin/rt")).expect("it was there");
    let called = started(&folder, &["search"]);
    assert_eq!(called.status, 2);
    assert!(called.errors.contains("rt isn't on this machine"), "{}", called.errors);
}

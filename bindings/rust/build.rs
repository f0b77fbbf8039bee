//! Links the library, from the archive that `bindings/archive` builds or DUCAT_ARCHIVE names.
//!
//! Where it isn't built yet it is proved first, which takes minutes. Cargo shows nothing of a build
//! script that is running, so what `bindings/archive` says of it goes to the terminal, if there is
//! one.

use std::fs::OpenOptions;
use std::io::{BufRead, BufReader, Write};
use std::path::Path;
use std::process::{Command, Stdio, exit};

fn main() {
    println!("cargo::rerun-if-env-changed=DUCAT_ARCHIVE");
    println!("cargo::rerun-if-changed=../archive");
    println!("cargo::rerun-if-changed=../../build");
    println!("cargo::rerun-if-changed=../../crates.txt");
    // Not what `rt` keeps beside these, which changes with each check.
    for entry in std::fs::read_dir("../../crates").expect("the crates") {
        let folder = entry.expect("a crate").path();
        for part in ["src", "specs", "proofs"].map(|part| folder.join(part)) {
            if part.is_dir() {
                println!("cargo::rerun-if-changed={}", part.display());
            }
        }
    }

    let mut command = Command::new("../archive");
    command.stdout(Stdio::piped()).stderr(Stdio::piped());
    let mut building = command.spawn().expect("bindings/archive can be started");
    // What it says on standard error is read first: on the other there is one path, at the end.
    let said = building.stderr.take().expect("its standard error");
    let proved = pass_on(BufReader::new(said));
    let output = building.wait_with_output().expect("bindings/archive ends");
    if !output.status.success() {
        eprintln!("bindings/archive failed");
        exit(1);
    }
    if proved {
        println!("cargo::warning=the library was proved and built, which is done once");
    }

    let printed = String::from_utf8(output.stdout).expect("a path in UTF-8");
    let archive = Path::new(printed.trim_end());
    let folder = archive.parent().expect("the archive's folder");
    let name = archive.file_name().expect("the archive's name");
    println!("cargo::rerun-if-changed={}", archive.display());
    println!("cargo::rustc-link-search=native={}", folder.display());
    println!("cargo::rustc-link-lib=static:+verbatim={}", name.display());
}

/// Passes lines on as they come, to the terminal and to what cargo shows of a script that fails;
/// whether there were any. There are none if the archive was built from what is there now.
fn pass_on(lines: impl BufRead) -> bool {
    let mut terminal = OpenOptions::new().write(true).open("/dev/tty").ok();
    let mut any = false;
    for line in lines.split(b'\n').map_while(Result::ok) {
        let line = String::from_utf8_lossy(&line);
        if let Some(terminal) = &mut terminal {
            // In place of the line that cargo draws there. A terminal that is gone is no fault.
            let _ = writeln!(terminal, "\r\x1b[Kducatfeather: {line}");
        }
        eprintln!("{line}");
        any = true;
    }
    any
}

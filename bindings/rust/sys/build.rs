//! Finds `libpethuvazh.a`: in the folder that `PETHUVAZH_LIB` names, in `lib` of this package, or where `bindings/build` writes it.

use std::env;
use std::path::PathBuf;
use std::process::ExitCode;

const ARCHIVE: &str = "libpethuvazh.a";
/// What the archive is built for: names of cargo's variables, and their values.
const TARGET: [(&str, &str); 4] = [
    ("CARGO_CFG_TARGET_ARCH", "x86_64"),
    ("CARGO_CFG_TARGET_OS", "linux"),
    ("CARGO_CFG_TARGET_ENV", "gnu"),
    ("CARGO_CFG_TARGET_POINTER_WIDTH", "64"),
];

/// Refuses a target for which there is no archive.
fn check_target() -> Result<(), String> {
    let is_other = |(name, wanted): &(&str, &str)| env::var(name).as_deref() != Ok(*wanted);
    match TARGET.iter().find(|it| is_other(it)) {
        None => Ok(()),
        Some((name, wanted)) => Err(format!(
            "{ARCHIVE} is built for x86_64-unknown-linux-gnu alone, and not for {}: {name} isn't `{wanted}`",
            env::var("TARGET").unwrap_or_default()
        )),
    }
}

/// Returns the folder that has the archive.
fn folder() -> Result<PathBuf, String> {
    let here = PathBuf::from(env::var_os("CARGO_MANIFEST_DIR").unwrap_or_default());
    let named = env::var_os("PETHUVAZH_LIB").filter(|it| !it.is_empty());
    let folders = match named {
        Some(folder) => vec![PathBuf::from(folder)],
        None => vec![here.join("lib"), here.join("../../lib")],
    };
    for folder in &folders {
        println!("cargo:rerun-if-changed={}", folder.join(ARCHIVE).display());
    }
    let found = folders.iter().find(|it| it.join(ARCHIVE).is_file());
    found.cloned().ok_or_else(|| {
        let tried: Vec<_> = folders.iter().map(|it| it.display().to_string()).collect();
        format!(
            "{ARCHIVE} isn't in {}. Name the folder that has it by the variable PETHUVAZH_LIB, or build it with bindings/build",
            tried.join(", nor in ")
        )
    })
}

fn main() -> ExitCode {
    println!("cargo:rerun-if-env-changed=PETHUVAZH_LIB");
    println!("cargo:rerun-if-env-changed=DOCS_RS");
    // docs.rs has no archive, and links nothing.
    if env::var_os("DOCS_RS").is_some() {
        return ExitCode::SUCCESS;
    }
    match check_target().and_then(|()| folder()) {
        Ok(folder) => {
            println!("cargo:rustc-link-search=native={}", folder.display());
            println!("cargo:rustc-link-lib=static=pethuvazh");
            ExitCode::SUCCESS
        }
        Err(why) => {
            eprintln!("{why}.");
            ExitCode::FAILURE
        }
    }
}

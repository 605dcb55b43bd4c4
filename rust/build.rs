//! Builds libkrbrelay.a by the Makefile of the library's tarball, which needs make, a C compiler, ar and
//! objcopy; or asks pkg-config for the installed library, where the feature `system` is chosen.
//!
//! The tarball is `vendor/`, or the folder that KRBRELAY_TARBALL names.

use std::env;
use std::error::Error;
use std::path::{Path, PathBuf};
use std::process::Command;

type Done<T> = Result<T, Box<dyn Error>>;

fn main() -> Done<()> {
    println!("cargo:rerun-if-env-changed=KRBRELAY_TARBALL");
    println!("cargo:rerun-if-env-changed=PKG_CONFIG_PATH");
    if env::var_os("CARGO_FEATURE_SYSTEM").is_some() {
        return link_installed();
    }
    let target = env::var("TARGET")?;
    let is_known = target.starts_with("x86_64-") || target.starts_with("aarch64-");
    if !is_known || !target.contains("-linux-") {
        return Err(format!("libkrbrelay is for Linux on x86-64 and aarch64, not for {target}").into());
    }
    build(&tarball()?, &target)
}

/// The words that pkg-config has for the linker. A folder that isn't one of the system's is also where
/// programs look for the shared object, if they are built by `cargo run` or `cargo test`.
fn link_installed() -> Done<()> {
    let asked = Command::new("pkg-config").args(["--libs", "krbrelay"]).output()?;
    if !asked.status.success() {
        return Err(String::from_utf8_lossy(&asked.stderr).into());
    }
    for word in String::from_utf8(asked.stdout)?.split_whitespace() {
        if let Some(folder) = word.strip_prefix("-L") {
            println!("cargo:rustc-link-search=native={folder}");
        }
    }
    println!("cargo:rustc-link-lib=krbrelay");
    Ok(())
}

fn tarball() -> Done<PathBuf> {
    let folder = match env::var_os("KRBRELAY_TARBALL") {
        Some(named) => PathBuf::from(named),
        None => Path::new(&env::var("CARGO_MANIFEST_DIR")?).join("vendor"),
    };
    folder.canonicalize().map_err(|fault| {
        let folder = folder.display();
        format!("{folder}: {fault}: KRBRELAY_TARBALL has to name the library's unpacked tarball").into()
    })
}

/// The target's own tool, or the system's where that is absent: musl comes with a compiler and no more.
fn tool_of(target: &str, tool: &str) -> String {
    let own = format!("{}-{tool}", target.replace("-unknown", ""));
    let path = env::var_os("PATH").unwrap_or_default();
    let is_there = tool == "gcc" || env::split_paths(&path).any(|folder| folder.join(&own).is_file());
    if is_there {
        own
    } else {
        tool.into()
    }
}

fn build(sources: &Path, target: &str) -> Done<()> {
    let folder = env::var("OUT_DIR")?;
    let mut make = Command::new("make");
    // Cargo's own flags for make belong to the make that it runs under.
    for name in ["MAKEFLAGS", "MFLAGS", "CARGO_MAKEFLAGS"] {
        make.env_remove(name);
    }
    make.current_dir(&folder).arg("-f").arg(sources.join("Makefile"));
    make.arg(format!("SOURCES={}", sources.display()));
    if target != env::var("HOST")? {
        make.args([("CC", "gcc"), ("AR", "ar"), ("OBJCOPY", "objcopy")].map(|(name, tool)| {
            format!("{name}={}", env::var(name).unwrap_or_else(|_| tool_of(target, tool)))
        }));
    }
    if !make.arg("libkrbrelay.a").status()?.success() {
        return Err("make failed".into());
    }
    println!("cargo:rerun-if-changed={}", sources.display());
    println!("cargo:rustc-link-search=native={folder}");
    println!("cargo:rustc-link-lib=static=krbrelay");
    println!("cargo:include={}", sources.display());
    Ok(())
}

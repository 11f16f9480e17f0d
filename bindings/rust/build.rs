//! Finds the library, by the first of these that applies:
//! - in the folder that HUCKLEPORT_LIB_DIR names;
//! - by pkg-config, if that has this version of the library;
//! - beside the crate, as releases have it: in `lib`, or as `assembly`, which the C compiler (CC, or cc) compiles;
//! - in the repository, where `bindings/c/make.py` makes it.
use std::env;
use std::path::{Path, PathBuf};
use std::process::Command;

const ARCHIVE: &str = "libhuckleport.a";
const SETTINGS: [&str; 7] = ["CC", "AR", "HUCKLEPORT_LIB_DIR", "PKG_CONFIG", "PKG_CONFIG_PATH", "PKG_CONFIG_LIBDIR", "PKG_CONFIG_SYSROOT_DIR"];

fn has_archive(folder: &Path) -> bool {
    folder.join(ARCHIVE).is_file()
}

/// Returns the folder that pkg-config knows; none if another machine is built for, since it knows this one alone.
fn by_pkg_config() -> Option<PathBuf> {
    if env::var_os("TARGET") != env::var_os("HOST") {
        return None;
    }
    let program = env::var_os("PKG_CONFIG").unwrap_or_else(|| "pkg-config".into());
    let wanted = concat!("huckleport = ", env!("CARGO_PKG_VERSION"));
    let said = Command::new(program).args(["--variable=libdir", wanted]).output().ok()?;
    let folder = PathBuf::from(String::from_utf8(said.stdout).ok()?.trim_end());
    (said.status.success() && has_archive(&folder)).then_some(folder)
}

fn folder() -> PathBuf {
    if let Some(folder) = env::var_os("HUCKLEPORT_LIB_DIR") {
        return PathBuf::from(folder);
    }
    let here = PathBuf::from(env::var_os("CARGO_MANIFEST_DIR").expect("cargo sets CARGO_MANIFEST_DIR"));
    let beside = || Some(here.join("lib")).filter(|it| has_archive(it));
    by_pkg_config().or_else(beside).or_else(|| assembled(&here)).unwrap_or_else(|| made(&here))
}

/// A tool of the C compiler: of the target's own name if another processor is built for.
fn tool(machine: &str, variable: &str, name: &str, cross: &str) -> String {
    let is_here = env::var_os("TARGET") == env::var_os("HOST");
    let usual = if is_here { name.to_string() } else { format!("{machine}-linux-gnu-{cross}") };
    env::var(variable).unwrap_or(usual)
}

fn run(program: &str, words: &[&str], folder: &Path) -> Option<()> {
    let ran = Command::new(program).args(words).current_dir(folder).status();
    if !matches!(ran, Ok(it) if it.success()) {
        eprintln!("{program} {} failed in {}.", words.join(" "), folder.display());
        return None;
    }
    Some(())
}

/// Compiles the proved assembly beside the crate into an archive of this build; none if there is none for the processor.
fn assembled(here: &Path) -> Option<PathBuf> {
    let machine = env::var("CARGO_CFG_TARGET_ARCH").ok()?;
    let (code, heap) = (here.join(format!("assembly/huckleport.{machine}.s")), here.join("assembly/heap.c"));
    if !code.is_file() || env::var("CARGO_CFG_TARGET_OS").ok()? != "linux" {
        return None;
    }
    let folder = PathBuf::from(env::var_os("OUT_DIR")?);
    let compiler = tool(&machine, "CC", "cc", "gcc");
    run(&compiler, &["-c", code.to_str()?, "-o", "huckleport.o"], &folder)?;
    run(&compiler, &["-O2", "-fPIC", "-c", heap.to_str()?, "-o", "heap.o"], &folder)?;
    run(&tool(&machine, "AR", "ar", "ar"), &["rcs", ARCHIVE, "huckleport.o", "heap.o"], &folder)?;
    Some(folder)
}

/// The folder of the library in the repository, which is built there in seconds where it is missing; for another processor, one of this build.
fn made(here: &Path) -> PathBuf {
    let script = here.join("../c/make.py");
    let target = env::var("TARGET").unwrap_or_default();
    let mut words = vec![];
    let mut folder = here.join("../c/out");
    if env::var_os("HOST") != env::var_os("TARGET") {
        folder = PathBuf::from(env::var_os("OUT_DIR").expect("cargo sets OUT_DIR"));
        let machine = target.split('-').next().unwrap_or_default();
        words = vec!["--machine".into(), machine.into(), "--compiler".into(), format!("{machine}-linux-gnu-gcc")];
    }
    if !has_archive(&folder) && script.is_file() {
        let ran = Command::new("python3").arg(&script).args(&words).arg("--to").arg(&folder).status();
        if !matches!(ran, Ok(it) if it.success()) {
            eprintln!("{} did not make the library.", script.display());
        }
    }
    folder
}

/// The crate's page: among the documents of the repository, or beside the crate, as a release has it.
fn page() -> PathBuf {
    let here = PathBuf::from(env::var_os("CARGO_MANIFEST_DIR").expect("cargo sets CARGO_MANIFEST_DIR"));
    let is_repository = here.join("../c/make.py").is_file();
    here.join(if is_repository { "../../docs/rust.md" } else { "README.md" })
}

fn main() {
    println!("cargo:rustc-env=HUCKLEPORT_PAGE={}", page().display());
    for it in SETTINGS {
        println!("cargo:rerun-if-env-changed={it}");
    }
    let folder = folder();
    let archive = folder.join(ARCHIVE);
    println!("cargo:rerun-if-changed={}", archive.display());
    if !has_archive(&folder) {
        eprintln!("{} is not there.", archive.display());
        eprintln!(
            "Make it by `python3 bindings/c/make.py`, install a release for pkg-config, or set HUCKLEPORT_LIB_DIR to the folder of a {ARCHIVE}."
        );
        std::process::exit(1);
    }
    println!("cargo:rustc-link-search=native={}", folder.display());
    println!("cargo:rustc-link-lib=static=huckleport");
}

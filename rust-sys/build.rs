//! Links `libcongee.a`: from the folder that `CONGEE_LIB_DIR` names, else with the feature `bundled` from `lib/TARGET` of this
//! crate, where a package has it, or from where `tools/c-library` builds it, else from where `pkg-config` finds this version.
//!
//! A build script of a crate above gets `DEP_CONGEE_INCLUDE`, the folder of the headers, `DEP_CONGEE_ROOT`, that of the archive,
//! and `DEP_CONGEE_VERSION`.

use std::env;
use std::path::{Path, PathBuf};
use std::process::Command;

/// The version that the declarations are of. An archive of another one may take other arguments.
const VERSION: &str = env!("CARGO_PKG_VERSION");

/// Where an archive is, and its headers.
struct Found {
    lib: PathBuf,
    include: PathBuf,
}

fn main() {
    for name in [
        "CONGEE_LIB_DIR",
        "CONGEE_INCLUDE_DIR",
        "PKG_CONFIG",
        "PKG_CONFIG_PATH",
        "DOCS_RS",
    ] {
        println!("cargo:rerun-if-env-changed={name}");
    }
    println!("cargo:rerun-if-changed=build.rs");
    // (what only reads the documentation needs no archive)
    if env::var_os("DOCS_RS").is_some() {
        return;
    }
    let target = env::var("TARGET").unwrap_or_default();
    if !(target.starts_with("x86_64-") && target.contains("-linux-")) {
        panic!("there is a libcongee.a for Linux on x86-64 alone, and none for {target}");
    }
    let own = PathBuf::from(env::var_os("CARGO_MANIFEST_DIR").unwrap_or_default());
    let found = named()
        .or_else(|| bundled(&own, &target))
        .unwrap_or_else(|| installed(&target));
    println!(
        "cargo:rerun-if-changed={}",
        found.lib.join("libcongee.a").display()
    );
    println!("cargo:rustc-link-search=native={}", found.lib.display());
    println!("cargo:rustc-link-lib=static=congee");
    println!("cargo:include={}", found.include.display());
    println!("cargo:root={}", found.lib.display());
    println!("cargo:version={VERSION}");
}

fn has_archive(folder: &Path) -> bool {
    folder.join("libcongee.a").is_file()
}

fn named() -> Option<Found> {
    let lib = PathBuf::from(env::var_os("CONGEE_LIB_DIR")?);
    if !has_archive(&lib) {
        panic!("CONGEE_LIB_DIR: {} has no libcongee.a", lib.display());
    }
    let include =
        env::var_os("CONGEE_INCLUDE_DIR").map_or_else(|| lib.join("../include"), PathBuf::from);
    Some(Found { lib, include })
}

/// In a package, else in a repository where it was built.
fn bundled(own: &Path, target: &str) -> Option<Found> {
    env::var_os("CARGO_FEATURE_BUNDLED")?;
    let places = [
        (own.join("lib").join(target), own.join("include")),
        (own.join("../out/c-library"), own.join("../include")),
    ];
    let (lib, include) = places.into_iter().find(|(lib, _)| has_archive(lib))?;
    Some(Found { lib, include })
}

fn installed(target: &str) -> Found {
    let none = || -> ! {
        panic!(
            "there is no libcongee.a {VERSION} for {target}: take the feature `bundled` of a package that has it, set \
             CONGEE_LIB_DIR to its folder, or install it for pkg-config"
        )
    };
    let Some(version) = ask("--modversion") else {
        none()
    };
    if version != VERSION {
        panic!("pkg-config finds congee {version}, and these declarations are of {VERSION}: install that, or set CONGEE_LIB_DIR");
    }
    match (ask("--variable=libdir"), ask("--variable=includedir")) {
        (Some(lib), Some(include)) if has_archive(Path::new(&lib)) => Found {
            lib: lib.into(),
            include: include.into(),
        },
        _ => none(),
    }
}

/// What `pkg-config` answers of the library, if it finds one.
fn ask(word: &str) -> Option<String> {
    let program = env::var_os("PKG_CONFIG").unwrap_or_else(|| "pkg-config".into());
    let ran = Command::new(program).args([word, "congee"]).output().ok()?;
    let text = String::from_utf8(ran.stdout).ok()?;
    ran.status.success().then(|| text.trim().to_string())
}

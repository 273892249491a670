//! Finds the library that this crate calls: in the folder DIRGWAKO_LIB, by pkg-config, or in the
//! repository that this crate is of.

use std::env;
use std::path::{Path, PathBuf};
use std::process::{exit, Command};

/// What the environment says of the library.
const SURROUNDINGS: [&str; 5] = [
    "DIRGWAKO_LIB",
    "DIRGWAKO_BUILD",
    "PKG_CONFIG_PATH",
    "PKG_CONFIG_LIBDIR",
    "PKG_CONFIG_SYSROOT_DIR",
];

fn main() {
    for name in SURROUNDINGS {
        println!("cargo:rerun-if-env-changed={name}");
    }
    let library = library();
    let folder = match find(library) {
        Ok(folder) => folder,
        Err(why) => {
            eprintln!("dirgwako: {why}");
            exit(1);
        }
    };
    println!("cargo:rerun-if-changed={}", folder.join(archive(library)).display());
    println!("cargo:rustc-link-search=native={}", folder.display());
    println!("cargo:rustc-link-lib=static={library}");
}

/// The library for as many threads as the features say: the largest that is asked for.
fn library() -> &'static str {
    let has = |feature: &str| env::var_os(format!("CARGO_FEATURE_{feature}")).is_some();
    if has("THREADS32") {
        "dirgwako32"
    } else if has("THREADS4") {
        "dirgwako"
    } else {
        "dirgwako16"
    }
}

fn archive(library: &str) -> String {
    format!("lib{library}.a")
}

/// The folder of the archive.
fn find(library: &str) -> Result<PathBuf, String> {
    if let Some(folder) = env::var_os("DIRGWAKO_LIB") {
        return in_folder(Path::new(&folder), library);
    }
    if let Some(folder) = by_pkg_config(library) {
        return in_folder(&folder, library)
            .map_err(|why| format!("pkg-config names the folder: {why}"));
    }
    in_repository(library)
}

fn in_folder(folder: &Path, library: &str) -> Result<PathBuf, String> {
    if folder.join(archive(library)).is_file() {
        return Ok(folder.to_path_buf());
    }
    let of = |(library, feature): &(&str, &'static str)| {
        folder.join(archive(library)).is_file().then_some(*feature)
    };
    let features = [
        ("dirgwako", "`features = [\"threads4\"]`"),
        ("dirgwako16", "no feature"),
        ("dirgwako32", "`features = [\"threads32\"]`"),
    ];
    let others: Vec<&str> = features.iter().filter_map(of).collect();
    let hint = if others.is_empty() {
        "set DIRGWAKO_LIB to where `bindings/c/build.sh install PREFIX` has put it: PREFIX/lib"
            .to_string()
    } else {
        format!("the libraries that are there are used with {}", others.join(" or "))
    };
    Err(format!("there is no {} in {}: {hint}", archive(library), folder.display()))
}

fn by_pkg_config(library: &str) -> Option<PathBuf> {
    let told = Command::new("pkg-config").args(["--variable=libdir", library]).output().ok()?;
    let folder = String::from_utf8(told.stdout).ok()?;
    let folder = folder.trim();
    (told.status.success() && !folder.is_empty()).then(|| PathBuf::from(folder))
}

/// What `bindings/c/build.sh` has built beside this crate, or builds now where that is asked for:
/// the proof of all takes half an hour.
fn in_repository(library: &str) -> Result<PathBuf, String> {
    let here = PathBuf::from(env::var_os("CARGO_MANIFEST_DIR").unwrap_or_default());
    let (script, out) = (here.join("../c/build.sh"), here.join("../out"));
    let install = "run `bindings/c/build.sh` and `bindings/c/build.sh install PREFIX` in the \
                   repository, and set DIRGWAKO_LIB=PREFIX/lib, or \
                   PKG_CONFIG_PATH=PREFIX/lib/pkgconfig";
    if out.join(archive(library)).is_file() {
        return Ok(out);
    }
    if !script.is_file() {
        return Err(format!(
            "{library} is not installed: pkg-config does not know it, and DIRGWAKO_LIB is not \
             set: {install}"
        ));
    }
    if env::var("DIRGWAKO_BUILD").as_deref() != Ok("1") {
        return Err(format!(
            "{library} is not built: {install}; or set DIRGWAKO_BUILD=1, and it is proved and \
             built now, which takes half an hour"
        ));
    }
    if Command::new("rt").arg("version").output().is_err() {
        return Err(format!(
            "{library} is not built, and the toolchain's `rt` is not on the path to build it: \
             {install}"
        ));
    }
    let built = Command::new("sh").arg(&script).status();
    if !built.is_ok_and(|status| status.success()) {
        return Err(format!("{} has failed, and its words say why: {install}", script.display()));
    }
    in_folder(&out, library)
}

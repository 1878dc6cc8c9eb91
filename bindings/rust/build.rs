//! Finds the library, in the order that the crate's documentation has, and links it. Where DOCS_RS is set, as docs.rs sets it, only the
//! documentation is built, which needs no library.
use std::env;
use std::path::{Path, PathBuf};
use std::process::Command;

const NONE: &str = "libpdt isn't there: name its folder by PDT_LIB_DIR, install it where pkg-config finds pdt, or run \
    `make libpdt` at the top of the repository. The documentation alone needs none: DOCS_RS=1 cargo doc";

fn main() {
    for name in
        ["DOCS_RS", "PDT_LIB_DIR", "PKG_CONFIG", "PKG_CONFIG_PATH", "PKG_CONFIG_LIBDIR", "PKG_CONFIG_SYSROOT_DIR"]
    {
        println!("cargo::rerun-if-env-changed={name}");
    }
    if env::var_os("DOCS_RS").is_some() {
        return;
    }
    match library() {
        Ok(library) => library.link(),
        Err(said) => println!("cargo::error={said}"),
    }
}

/// A library in a folder: the static one where both are there, since a program with it needs no other file.
struct Library {
    folder: PathBuf,
    file: PathBuf,
    kind: &'static str,
}

impl Library {
    /// The library of a folder, if it has one.
    fn of(folder: &Path) -> Option<Library> {
        let folder = folder.canonicalize().ok()?;
        [("libpdt.a", "static"), ("libpdt.so", "dylib")].into_iter().find_map(|(name, kind)| {
            let file = folder.join(name);
            file.is_file().then(|| Library { folder: folder.clone(), file, kind })
        })
    }

    fn link(&self) {
        println!("cargo::rerun-if-changed={}", self.file.display());
        println!("cargo::rustc-link-search=native={}", self.folder.display());
        println!("cargo::rustc-link-lib={}=pdt", self.kind);
    }
}

/// The library that is linked. One that is named and isn't there is not made up for by another one.
fn library() -> Result<Library, String> {
    if let Some(named) = env::var_os("PDT_LIB_DIR").map(PathBuf::from) {
        // all of it: a static library may come later, beside a shared one
        println!("cargo::rerun-if-changed={}", named.display());
        let none = || format!("PDT_LIB_DIR is {}, which has no libpdt.a and no libpdt.so", named.display());
        return Library::of(&named).ok_or_else(none);
    }
    let built = Path::new(env!("CARGO_MANIFEST_DIR")).join("../../libpdt/out");
    println!("cargo::rerun-if-changed={}", built.join("libpdt.a").display());
    installed().and_then(|folder| Library::of(&folder)).or_else(|| Library::of(&built)).ok_or_else(|| NONE.to_string())
}

/// The folder in which pkg-config has the library of this crate's version, if it is there.
fn installed() -> Option<PathBuf> {
    let program = env::var_os("PKG_CONFIG").unwrap_or("pkg-config".into());
    let wanted = concat!("pdt = ", env!("CARGO_PKG_VERSION"));
    let told = Command::new(program).args(["--variable=libdir", wanted]).output().ok()?;
    let folder = String::from_utf8(told.stdout).ok()?;
    (told.status.success() && !folder.trim().is_empty()).then(|| folder.trim().into())
}

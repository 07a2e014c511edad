//! Links the proved library: that of the folder in `PEVGHAZO_LIB_DIR`, or else the repository's own, or else the installed one,
//! which `pkg-config` finds.

use std::path::{Path, PathBuf};
use std::process::{Command, exit};

/// The names that the library goes by, with the file and the kind of linking: installed with the functions in plain C, as `rt` makes it, shared.
const NAMES: [(&str, &str, &str); 3] =
    [("pevghazo", "libpevghazo.a", "static"), ("capi", "libcapi.a", "static"), ("pevghazo", "libpevghazo.so", "dylib")];

fn main() {
    for variable in ["PEVGHAZO_LIB_DIR", "PKG_CONFIG", "PKG_CONFIG_PATH", "PKG_CONFIG_LIBDIR"] {
        println!("cargo:rerun-if-env-changed={variable}");
    }
    if let Some(folder) = std::env::var_os("PEVGHAZO_LIB_DIR").map(PathBuf::from) {
        if !link(&folder) {
            eprintln!("PEVGHAZO_LIB_DIR is {}, which holds neither libpevghazo.a nor libcapi.a", folder.display());
            exit(1);
        }
        return;
    }
    let own = repository().join("target/staticlib");
    if link(&own) || installed().is_some_and(|folder| link(&folder)) {
        return;
    }
    eprintln!(
        "The proved library is missing. Either run `make lib` at the root of the repository, where it is {};",
        own.display()
    );
    eprintln!("or run `make install` there, so that pkg-config finds it (PKG_CONFIG_PATH for another PREFIX);");
    eprintln!("or set PEVGHAZO_LIB_DIR to the folder that holds libpevghazo.a");
    exit(1);
}

/// The folder that this crate's repository would be.
fn repository() -> PathBuf {
    let here = std::env::var_os("CARGO_MANIFEST_DIR").expect("cargo sets it");
    Path::new(&here).ancestors().nth(2).map(Path::to_path_buf).unwrap_or_default()
}

/// The folder of the installed library, if that is of this version or a later one.
fn installed() -> Option<PathBuf> {
    let program = std::env::var_os("PKG_CONFIG").unwrap_or("pkg-config".into());
    let of_this_version = concat!("pevghazo >= ", env!("CARGO_PKG_VERSION"));
    let said = Command::new(program).args(["--variable=libdir", of_this_version]).output().ok()?;
    let folder = String::from_utf8(said.stdout).ok()?;
    (said.status.success() && !folder.trim().is_empty()).then(|| PathBuf::from(folder.trim()))
}

/// Links the library of a folder, if it holds one.
fn link(folder: &Path) -> bool {
    let Some((name, file, kind)) = NAMES.into_iter().find(|(_, file, _)| folder.join(file).is_file()) else {
        return false;
    };
    println!("cargo:rerun-if-changed={}", folder.join(file).display());
    println!("cargo:rustc-link-search=native={}", folder.display());
    println!("cargo:rustc-link-lib={kind}={name}");
    true
}

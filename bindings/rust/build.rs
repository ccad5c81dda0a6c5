//! With the feature `system`, names the folder of libconfscript.a to cargo: the one in CONFSCRIPT_LIB, or that of
//! pkg-config. Cargo looks again if the file or one of these variables changes.
use std::env;
use std::process::{exit, Command};

fn main() {
    println!("cargo:rerun-if-changed=build.rs");
    for variable in ["CONFSCRIPT_LIB", "PKG_CONFIG_PATH", "PKG_CONFIG_LIBDIR", "PKG_CONFIG_SYSROOT_DIR"] {
        println!("cargo:rerun-if-env-changed={variable}");
    }
    if env::var_os("CARGO_FEATURE_SYSTEM").is_none() {
        return;
    }
    let folder = env::var("CONFSCRIPT_LIB").ok().or_else(found_folder).unwrap_or_else(|| {
        fail("pkg-config finds no confscript, and CONFSCRIPT_LIB does not name the folder of libconfscript.a");
    });
    let library = env::current_dir().unwrap().join(folder).join("libconfscript.a");
    if !library.is_file() {
        fail(&format!("there is no {}", library.display()));
    }
    println!("cargo:rerun-if-changed={}", library.display());
    println!("cargo:rustc-link-search=native={}", library.parent().unwrap().display());
    println!("cargo:rustc-link-lib=static=confscript");
}

fn found_folder() -> Option<String> {
    let found = Command::new("pkg-config").args(["--variable=libdir", "confscript"]).output().ok()?;
    String::from_utf8(found.stdout).ok().map(|it| it.trim().to_owned()).filter(|it| !it.is_empty())
}

// A build that failed is tried again each time, so what was missing may be installed meanwhile.
fn fail(text: &str) -> ! {
    eprintln!("confscript: {text}");
    exit(1)
}

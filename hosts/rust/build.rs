//! Asks pkg-config where the archives of the chosen halves are installed: PKG_CONFIG_PATH names the folder lib/pkgconfig of the install.

use std::env;
use std::process::Command;

fn main() {
    println!("cargo:rerun-if-env-changed=PKG_CONFIG_PATH");
    for half in ["planning", "signer", "verifier", "broker", "writer", "v1_signer", "v1_verifier"] {
        if env::var_os(format!("CARGO_FEATURE_{}", half.to_uppercase())).is_none() {
            continue;
        }
        let package = format!("rachnoel-{}", half.replace('_', "-"));
        let asked = Command::new("pkg-config").args(["--variable=libdir", &package]).output();
        let folder = match asked {
            Ok(output) if output.status.success() => String::from_utf8(output.stdout).expect("a path"),
            _ => {
                let part = half.replace('_', "-");
                println!("cargo::error=pkg-config does not find {package}: make -C hosts install-{part}, and set PKG_CONFIG_PATH to lib/pkgconfig of the install");
                return;
            }
        };
        let folder = folder.trim();
        println!("cargo:rerun-if-changed={folder}/librachnoel_{half}.a");
        println!("cargo:rustc-link-search=native={folder}");
        println!("cargo:rustc-link-lib=static=rachnoel_{half}");
    }
}

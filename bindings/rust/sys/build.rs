//! Finds libima_verify: in the folder that the environment variable IMA_VERIFY_DIR names, otherwise by `pkg-config --libs ima_verify`.

use std::env;
use std::process::{exit, Command};

fn main() {
    println!("cargo:rerun-if-env-changed=IMA_VERIFY_DIR");
    println!("cargo:rerun-if-env-changed=PKG_CONFIG_PATH");
    if let Some(folder) = env::var("IMA_VERIFY_DIR").ok().filter(|folder| !folder.is_empty()) {
        println!("cargo:rustc-link-search=native={folder}");
        println!("cargo:rustc-link-lib=dylib=ima_verify");
        return;
    }
    for flag in pkg_config_libs().split_whitespace() {
        if let Some(folder) = flag.strip_prefix("-L") {
            println!("cargo:rustc-link-search=native={folder}");
        } else if let Some(library) = flag.strip_prefix("-l") {
            println!("cargo:rustc-link-lib={library}");
        }
    }
}

fn pkg_config_libs() -> String {
    match Command::new("pkg-config").args(["--libs", "ima_verify"]).output() {
        Ok(ended) if ended.status.success() => String::from_utf8_lossy(&ended.stdout).into_owned(),
        Ok(ended) => fail(&String::from_utf8_lossy(&ended.stderr)),
        Err(error) => fail(&format!("pkg-config: {error}")),
    }
}

fn fail(why: &str) -> ! {
    eprintln!("libima_verify is not found: name its folder in IMA_VERIFY_DIR, or make pkg-config know it.\n{why}");
    exit(1)
}

//! Links libchanhub.a: from the folder that CHANHUB_LIB names, or from where `make` leaves it.

use std::env;
use std::path::PathBuf;
use std::process::ExitCode;

fn main() -> ExitCode {
    let package = PathBuf::from(env::var_os("CARGO_MANIFEST_DIR").expect("set by cargo"));
    let built = package.with_file_name("out");
    let named = env::var_os("CHANHUB_LIB").filter(|name| !name.is_empty());
    let folder = named.map_or(built, |name| package.join(name));
    let library = folder.join("libchanhub.a");
    println!("cargo:rerun-if-env-changed=CHANHUB_LIB");
    println!("cargo:rerun-if-changed={}", library.display());
    if !library.is_file() {
        eprintln!(
            "There is no libchanhub.a in {}.\n\
             Either build it, by `make -C capi` at the top of chanhub's repository,\n\
             or have CHANHUB_LIB name the folder that has it, by its full path.",
            folder.display()
        );
        return ExitCode::FAILURE;
    }
    println!("cargo:rustc-link-search=native={}", folder.display());
    println!("cargo:rustc-link-lib=static=chanhub");
    ExitCode::SUCCESS
}

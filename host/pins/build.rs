// Finds the proved pin table's archive and links it.
use std::env;
use std::path::PathBuf;

fn main() {
    println!("cargo:rerun-if-env-changed=PINS_LIB_DIR");
    let folder = match env::var_os("PINS_LIB_DIR") {
        Some(folder) => PathBuf::from(folder),
        None => PathBuf::from(env::var_os("CARGO_MANIFEST_DIR").unwrap()).join("../../target/staticlib"),
    };
    let archive = folder.join("libpins.a");
    println!("cargo:rerun-if-changed={}", archive.display());
    if !archive.is_file() {
        fail(&format!(
            "{} is not there. Make it with `./archives pins` at the repository's root (or let host/check do it), \
             or set PINS_LIB_DIR to the folder that has it.",
            archive.display()
        ));
    }
    let machine = env::var("CARGO_CFG_TARGET_ARCH").unwrap();
    if machine != "x86_64" && env::var_os("PINS_LIB_DIR").is_none() {
        fail(&format!(
            "`./archives` compiles for x86-64 alone, and this build is for {machine}. Build for x86-64 and run under an emulator: \
             host/check shows how, and does it."
        ));
    }
    let folder = folder.canonicalize().expect("a folder with a file in it");
    println!("cargo:rustc-link-search=native={}", folder.display());
    println!("cargo:rustc-link-lib=static=pins");
}

fn fail(message: &str) -> ! {
    eprintln!("\npins: {message}\n");
    std::process::exit(1);
}

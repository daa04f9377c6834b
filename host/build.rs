// Finds the proved library's archive and links it.
use std::env;
use std::path::PathBuf;

fn main() {
    println!("cargo:rerun-if-env-changed=WATER_LIB_DIR");
    let folder = match env::var_os("WATER_LIB_DIR") {
        Some(folder) => PathBuf::from(folder),
        None => PathBuf::from(env::var_os("CARGO_MANIFEST_DIR").unwrap()).join("../target/staticlib"),
    };
    let archive = folder.join("libwater.a");
    println!("cargo:rerun-if-changed={}", archive.display());
    if !archive.is_file() {
        fail(&format!(
            "{} is not there. Make it with `./archives water` at the repository's root (or let host/check do it), \
             or set WATER_LIB_DIR to the folder that has it.",
            archive.display()
        ));
    }
    let machine = env::var("CARGO_CFG_TARGET_ARCH").unwrap();
    if machine != "x86_64" && env::var_os("WATER_LIB_DIR").is_none() {
        fail(&format!(
            "`./archives` compiles for x86-64 alone, and this build is for {machine}. Build for x86-64 and run under an emulator: \
             host/check shows how, and does it."
        ));
    }
    let folder = folder.canonicalize().expect("a folder with a file in it");
    println!("cargo:rustc-link-search=native={}", folder.display());
    println!("cargo:rustc-link-lib=static=water");
}

fn fail(message: &str) -> ! {
    eprintln!("\nwater: {message}\n");
    std::process::exit(1);
}

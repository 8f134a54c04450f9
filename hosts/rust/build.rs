// Finds the archive: where MPEG1_ARCHIVE says, else target/staticlib/libmpeg1.a at the repository's top.
use std::path::PathBuf;
use std::process::exit;

fn main() {
    println!("cargo:rerun-if-env-changed=MPEG1_ARCHIVE");
    let here = PathBuf::from(std::env::var_os("CARGO_MANIFEST_DIR").unwrap_or_default());
    let archive = match std::env::var_os("MPEG1_ARCHIVE") {
        Some(path) => PathBuf::from(path),
        None => here.join("../../target/staticlib/libmpeg1.a"),
    };
    println!("cargo:rerun-if-changed={}", archive.display());
    if archive.file_name().map_or(true, |name| name != "libmpeg1.a") {
        eprintln!("MPEG1_ARCHIVE is {}: it has to be the path of a file named libmpeg1.a", archive.display());
        exit(1);
    }
    let Ok(archive) = archive.canonicalize() else {
        eprintln!("the decoder's archive {} is not there:", archive.display());
        eprintln!("make it with `hosts/archive mpeg1` at the repository's top, or set MPEG1_ARCHIVE to the path of a libmpeg1.a");
        exit(1);
    };
    if let Some(folder) = archive.parent() {
        println!("cargo:rustc-link-search=native={}", folder.display());
    }
    println!("cargo:rustc-link-lib=static=mpeg1");
}

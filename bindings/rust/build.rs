//! Links libhatmuyon.a from the folder `HATMUYON_ARCHIVE_DIR`, or else from target/staticlib of the
//! repository. The tests find its path in `HATMUYON_ARCHIVE`.

use std::env;
use std::path::PathBuf;

fn main() {
    println!("cargo:rerun-if-env-changed=HATMUYON_ARCHIVE_DIR");
    let folder = match env::var_os("HATMUYON_ARCHIVE_DIR") {
        Some(folder) => PathBuf::from(folder),
        None => PathBuf::from(env::var_os("CARGO_MANIFEST_DIR").expect("cargo sets it"))
            .join("../../target/staticlib"),
    };
    let archive = folder.join("libhatmuyon.a");
    println!("cargo:rerun-if-changed={}", archive.display());
    match archive.canonicalize() {
        Ok(archive) => {
            let folder = archive.parent().expect("a file lies in a folder");
            println!("cargo:rustc-link-search=native={}", folder.display());
            println!("cargo:rustc-link-lib=static=hatmuyon");
            println!("cargo:rustc-env=HATMUYON_ARCHIVE={}", archive.display());
        }
        Err(error) => {
            eprintln!("{}: {error}", archive.display());
            eprintln!("run ./archive at the top of the repository first, or set HATMUYON_ARCHIVE_DIR to the folder of libhatmuyon.a");
            std::process::exit(1);
        }
    }
}

//! With the feature `linked`: links the archives that TURNS_ARCHIVES names, a list with `:` between paths.

use std::path::Path;

fn main() {
    println!("cargo::rerun-if-env-changed=TURNS_ARCHIVES");
    if std::env::var_os("CARGO_FEATURE_LINKED").is_none() {
        return;
    }
    let archives = std::env::var("TURNS_ARCHIVES").expect("TURNS_ARCHIVES names the archives to link");
    for archive in archives.split(':').map(Path::new) {
        let folder = archive.parent().expect("a full path");
        let file = archive.file_name().and_then(|name| name.to_str()).expect("a file");
        let name = file.strip_prefix("lib").and_then(|name| name.strip_suffix(".a")).expect("libNAME.a");
        println!("cargo::rerun-if-changed={}", archive.display());
        println!("cargo::rustc-link-search=native={}", folder.display());
        println!("cargo::rustc-link-lib=static={name}");
    }
}

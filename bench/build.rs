//! Links the archives from the folder that ENGINE names, again whenever one
//! changes: libwunzelihle.a, libexercise_probe.a for the check, and libbefore.a.

fn main() {
    let folder = std::env::var("ENGINE").expect("ENGINE is the folder of libwunzelihle.a");
    println!("cargo:rustc-link-search=native={folder}");
    println!("cargo:rerun-if-env-changed=ENGINE");
    link(&folder, "wunzelihle");
    link(&folder, "exercise_probe");
    if std::env::var_os("CARGO_FEATURE_BEFORE").is_some() {
        link(&folder, "before");
    }
}

fn link(folder: &str, name: &str) {
    println!("cargo:rustc-link-lib=static={name}");
    println!("cargo:rerun-if-changed={folder}/lib{name}.a");
}

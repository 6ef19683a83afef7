// Links the libraries that `.ci/static` makes: the card's, and its form that is fed in parts.
use std::path::Path;

fn main() {
    let folder = Path::new(env!("CARGO_MANIFEST_DIR")).join("../target/staticlib");
    println!("cargo:rustc-link-search=native={}", folder.display());
    for name in ["wokshimmer", "wokpieces"] {
        let library = folder.join(format!("lib{name}.a"));
        assert!(library.exists(), "run `.ci/static {name}` first: {} is not there", library.display());
        println!("cargo:rustc-link-lib=static={name}");
        println!("cargo:rerun-if-changed={}", library.display());
    }
}

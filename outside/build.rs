// Links the proved static library, which `.ci/library` writes under target/.
fn main() {
    let top = std::path::Path::new(env!("CARGO_MANIFEST_DIR")).join("..");
    let dir = top.join("target/staticlib");
    println!("cargo::rustc-link-search=native={}", dir.display());
    println!("cargo::rustc-link-lib=static=cardlock");
    println!("cargo::rerun-if-changed={}", dir.join("libcardlock.a").display());
}

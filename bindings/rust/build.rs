// For a Cargo package that has libcilunovay.a in its folder lib and cilunovay.rs in src:
// tells where the archive is. Stands beside Cargo.toml.

fn main() {
    let folder = std::path::Path::new(env!("CARGO_MANIFEST_DIR")).join("lib");
    println!("cargo::rustc-link-search=native={}", folder.display());
    println!("cargo::rerun-if-changed={}", folder.join("libcilunovay.a").display());
}

// Links the engine's archive, which `make` puts into build/.
fn main() {
    let root = concat!(env!("CARGO_MANIFEST_DIR"), "/../../build");
    println!("cargo:rustc-link-search=native={root}/lib");
    println!("cargo:rustc-link-lib=static=oolong");
    println!("cargo:rerun-if-changed={root}/lib/liboolong.a");
}

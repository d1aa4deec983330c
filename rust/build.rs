//! Links the archive of the C entries, ../target/staticlib/libentries.a, where the target is x86-64. On another machine the calls go over
//! the bridge, ../build/serve. ULLIMAQSU_LIB names the folder of another archive, which is linked on every machine.
use std::env;
use std::path::PathBuf;

fn main() {
    println!("cargo::rustc-check-cfg=cfg(direct)");
    println!("cargo:rerun-if-changed=build.rs");
    println!("cargo:rerun-if-env-changed=ULLIMAQSU_LIB");
    let here = PathBuf::from(env::var("CARGO_MANIFEST_DIR").expect("cargo says where it is"));
    let x86 = env::var("CARGO_CFG_TARGET_ARCH").as_deref() == Ok("x86_64");
    let folder = match env::var("ULLIMAQSU_LIB") {
        Ok(other) => PathBuf::from(other),
        Err(_) if x86 => here.join("../target/staticlib"),
        Err(_) => return,
    };
    println!("cargo:rustc-cfg=direct");
    println!("cargo:rustc-link-search=native={}", folder.display());
    println!("cargo:rustc-link-lib=static=entries");
    println!("cargo:rerun-if-changed={}", folder.join("libentries.a").display());
}

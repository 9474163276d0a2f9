//! Links the proved archive, and behind it the C of the toolchain's heap. WOLQEDIR_LIB names a folder where both lie.
use std::path::Path;

const HOW: &str = "set it to a folder with libwolqedir.a and liblibc_c.a, which docs/guide/library.md says how to make";

fn main() {
    println!("cargo:rerun-if-env-changed=WOLQEDIR_LIB");
    let Ok(folder) = std::env::var("WOLQEDIR_LIB") else {
        panic!("WOLQEDIR_LIB isn't there, or isn't UTF-8: {HOW}");
    };
    for name in ["wolqedir", "libc_c"] {
        let path = Path::new(&folder).join(format!("lib{name}.a"));
        if !path.is_file() {
            panic!("WOLQEDIR_LIB is {folder:?}, and there is no file {}: {HOW}", path.display());
        }
        println!("cargo:rerun-if-changed={}", path.display());
        println!("cargo:rustc-link-lib=static={name}");
    }
    println!("cargo:rustc-link-search=native={folder}");
}

//! Links the desk. `KFS_LIBS` is the folder with `libkfs_c.a` and `liblibc_c.a`; `tools/hosts` sets it.

fn main() {
    println!("cargo:rerun-if-env-changed=KFS_LIBS");
    let folder = std::env::var("KFS_LIBS").expect("KFS_LIBS: the folder with libkfs_c.a and liblibc_c.a");
    println!("cargo:rustc-link-search=native={folder}");
    println!("cargo:rustc-link-lib=static=kfs_c");
    println!("cargo:rustc-link-lib=static=libc_c");
}

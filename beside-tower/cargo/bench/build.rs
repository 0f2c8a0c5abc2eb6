//! Links the static library of the crate `cycles`, and the C code that it calls: STATICLIB and C_CODE say where they are.

fn main() {
    let library = std::env::var("STATICLIB").expect("STATICLIB: the folder of libcycles.a");
    let c_code = std::env::var("C_CODE").expect("C_CODE: the folder of liblibc_c.a and libos_c.a");
    println!("cargo:rustc-link-search=native={library}");
    println!("cargo:rustc-link-search=native={c_code}");
    println!("cargo:rustc-link-lib=static=cycles");
    println!("cargo:rustc-link-lib=static=os_c");
    println!("cargo:rustc-link-lib=static=libc_c");
    println!("cargo:rerun-if-changed={library}/libcycles.a");
    println!("cargo:rerun-if-env-changed=STATICLIB");
}

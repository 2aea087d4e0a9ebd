//! Links the proved static library where it has been built (`rt lib` in crates/desk): then `cfg(desk)` is set and the tests over the C
//! interface are compiled. The gate sets CUE_DESK=1, so that a missing library is an error there and no test is left out unseen.
//! Links Lua 5.4 into the benchmark, and sets `cfg(lua)`, where Debian's liblua5.4-dev is installed.

use std::path::Path;

fn main() {
    link_desk();
    link_lua();
}

fn link_desk() {
    let folder = Path::new(env!("CARGO_MANIFEST_DIR")).join("../crates/desk/out");
    let library = folder.join("libdesk.a");
    println!("cargo:rerun-if-env-changed=CUE_DESK");
    println!("cargo:rerun-if-changed={}", library.display());
    println!("cargo:rustc-check-cfg=cfg(desk)");
    if library.exists() {
        println!("cargo:rustc-cfg=desk");
        println!("cargo:rustc-link-search=native={}", folder.display());
        println!("cargo:rustc-link-lib=static=desk");
    } else if std::env::var("CUE_DESK").is_ok() {
        panic!("there is no {}: run 'rt lib' in crates/desk first", library.display());
    }
}

fn link_lua() {
    const HEADER: &str = "/usr/include/lua5.4/lua.h";
    let found = Path::new(HEADER).exists();
    // A package's files come with the times they were packed at, so a header that comes later is told by the folder.
    println!("cargo:rerun-if-changed={}", if found { HEADER } else { "/usr/include" });
    println!("cargo:rustc-check-cfg=cfg(lua)");
    if found {
        println!("cargo:rustc-cfg=lua");
        println!("cargo:rustc-link-arg-bin=bench=-llua5.4");
    }
}

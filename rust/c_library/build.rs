//! Names the shared library by its major version, and while that is 0 by its minor one too, where object files are ELF,
//! which also have weak names, or Mach-O.

use std::env;

fn main() {
    // cuts the contracts from the source of the library
    erase::build_library("i_shape_c_calls");
    let told = |name| env::var(name).unwrap_or_default();
    let (major, minor) = (
        told("CARGO_PKG_VERSION_MAJOR"),
        told("CARGO_PKG_VERSION_MINOR"),
    );
    let named = if major == "0" {
        format!("0.{minor}")
    } else {
        major
    };
    println!("cargo::rustc-check-cfg=cfg(weak_names, for_javascript)");
    if told("CARGO_CFG_TARGET_VENDOR") == "apple" {
        println!("cargo::rustc-cdylib-link-arg=-Wl,-install_name,@rpath/libi_shape.{named}.dylib");
    } else if told("CARGO_CFG_TARGET_FAMILY") == "unix" {
        println!("cargo::rustc-cfg=weak_names");
        println!("cargo::rustc-cdylib-link-arg=-Wl,-soname,libi_shape.so.{named}");
    }
    if told("CARGO_CFG_TARGET_OS") == "linux" {
        // some C compilers don't ask their linker for one
        println!("cargo::rustc-cdylib-link-arg=-Wl,--build-id=sha1");
    }
}

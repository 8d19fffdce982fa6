//! Builds the library with the C compiler (`CC`, else `cc`) and `AR`, in one of three ways:
//! - over the proved machine code where there is one for the target: the layer `tcpcore.c` and `prebuilt/MACHINE/libtcp_c.a`,
//!   as the tarball has them, around this crate or in the folder that TCPCORE_PREBUILT names (empty, it says that there is none);
//! - else of the one C file for any machine, with the proved machine code for some in it, which is in `csrc` of this crate, in `release` of
//!   this repository, or in the folder of tcpcore.c and tcpcore.h that TCPCORE_SOURCE names;
//! - with the feature `native` nothing is built, and libtcpcore.a is linked: in TCPCORE_LIB_DIR, else where pkg-config says.
use std::env;
use std::path::{Path, PathBuf};
use std::process::Command;

fn main() {
    for name in ["TCPCORE_LIB_DIR", "TCPCORE_PREBUILT", "TCPCORE_SOURCE", "PKG_CONFIG_PATH", "CC", "AR", "CFLAGS"] {
        println!("cargo:rerun-if-env-changed={name}");
    }
    if env::var_os("CARGO_FEATURE_NATIVE").is_some() {
        link_native();
    } else if let Some((folder, machine)) = prebuilt() {
        build_over(&folder, &machine);
    } else {
        build_file();
    }
}

fn link_native() {
    if let Some(folder) = env::var_os("TCPCORE_LIB_DIR") {
        println!("cargo:rustc-link-search=native={}", Path::new(&folder).display());
    } else if let Ok(told) = Command::new("pkg-config").args(["--libs-only-L", "tcpcore"]).output() {
        for word in String::from_utf8_lossy(&told.stdout).split_whitespace() {
            println!("cargo:rustc-link-search=native={}", word.trim_start_matches("-L"));
        }
    }
    println!("cargo:rustc-link-lib=static=tcpcore");
}

/// What cargo says of the target.
fn target(what: &str) -> String {
    env::var(format!("CARGO_CFG_TARGET_{what}")).unwrap_or_default()
}

/// The name of the machine code that the target runs, of those that there are: objects of Linux.
fn machine() -> Option<&'static str> {
    let features = target("FEATURE");
    let has = |name| features.split(',').any(|it| it == name);
    match (&*target("OS"), &*target("ARCH"), &*target("ENDIAN"), &*target("POINTER_WIDTH")) {
        ("linux", "x86_64", _, "64") => {
            let is_v2 = ["cmpxchg16b", "popcnt", "sse3", "sse4.1", "sse4.2", "ssse3"].into_iter().all(has);
            Some(if is_v2 { "x86-64-v2" } else { "x86-64" })
        }
        ("linux", "aarch64", "little", "64") => Some("aarch64"),
        _ => None,
    }
}

/// The folder of the layer, and that of the machine code for the target; none where the portable file is asked for.
fn prebuilt() -> Option<(PathBuf, PathBuf)> {
    if env::var_os("CARGO_FEATURE_UNCHECKED").is_some() || env::var_os("TCPCORE_SOURCE").is_some() {
        return None;
    }
    let given = env::var_os("TCPCORE_PREBUILT").map(PathBuf::from);
    let around = PathBuf::from(env::var_os("CARGO_MANIFEST_DIR").expect("cargo sets it")).join("..");
    let folder = given.clone().unwrap_or(around);
    let code = folder.join("prebuilt").join(machine()?);
    let is_there = folder.join("layout.h").exists() && code.join("libtcp_c.a").exists();
    let is_wanted = given.map_or(false, |it| !it.as_os_str().is_empty());
    assert!(is_there || !is_wanted, "TCPCORE_PREBUILT: no layer, or no {}", code.display());
    is_there.then_some((folder, code))
}

/// The layer over the machine code.
fn build_over(folder: &Path, code: &Path) {
    println!("cargo:rerun-if-changed={}", code.join("libtcp_c.a").display());
    let name = code.file_name().unwrap_or_default().to_string_lossy();
    compile(folder, "-std=c11", &[&format!("-DTCPCORE_BUILD=\"{name} machine code\"")]);
    println!("cargo:rustc-link-search=native={}", code.display());
    println!("cargo:rustc-link-lib=static=tcp_c");
}

/// The folder of the file and its header, the first that is there.
fn source() -> PathBuf {
    let here = PathBuf::from(env::var_os("CARGO_MANIFEST_DIR").expect("cargo sets it"));
    let given = env::var_os("TCPCORE_SOURCE").map(PathBuf::from);
    let places = given.into_iter().chain([here.join("csrc"), here.join("../../../release")]);
    let found = places.into_iter().find(|place| place.join("tcpcore.c").exists());
    found.expect("no tcpcore.c: set TCPCORE_SOURCE to the folder that it and tcpcore.h are in")
}

fn build_file() {
    let mut words = Vec::new();
    if env::var_os("CARGO_FEATURE_UNCHECKED").is_some() {
        words.push("-DTCPCORE_UNCHECKED");
    }
    if machine() == Some("x86-64-v2") {
        // What Rust takes for granted there C may, too.
        words.extend(["-mssse3", "-msse4.2", "-mpopcnt"]);
    }
    compile(&source(), "-std=c99", &words);
}

/// A folder's tcpcore.c as libtcpcore.a, which is linked.
fn compile(folder: &Path, standard: &str, words: &[&str]) {
    let file = folder.join("tcpcore.c");
    let out = PathBuf::from(env::var_os("OUT_DIR").expect("cargo sets it"));
    let (object, archive) = (out.join("tcpcore.o"), out.join("libtcpcore.a"));
    println!("cargo:rerun-if-changed={}", file.display());
    println!("cargo:rerun-if-changed={}", folder.join("tcpcore.h").display());
    let mut compile = Command::new(env::var_os("CC").unwrap_or_else(|| "cc".into()));
    compile.args([standard, "-O2", "-fPIC", "-ffunction-sections"]);
    compile.args(env::var("CFLAGS").unwrap_or_default().split_whitespace()).args(words);
    run(compile.arg("-I").arg(folder).arg("-c").arg(&file).arg("-o").arg(&object));
    // An archive of before would keep what was in it.
    let _ = std::fs::remove_file(&archive);
    let mut join = Command::new(env::var_os("AR").unwrap_or_else(|| "ar".into()));
    run(join.arg("crs").arg(&archive).arg(&object));
    println!("cargo:rustc-link-search=native={}", out.display());
    println!("cargo:rustc-link-lib=static=tcpcore");
}

fn run(command: &mut Command) {
    let status = command.status();
    assert!(matches!(status, Ok(it) if it.success()), "{command:?}: {status:?}");
}

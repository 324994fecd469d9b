//! Compiles the C, links it, and leaves the compilers' names and flags for the report.

use std::env;
use std::path::Path;
use std::process::Command;

const FLAGS: [&str; 6] = ["-O3", "-std=c11", "-fPIE", "-Wall", "-Wextra", "-Werror"];

/// Each source, with the flag that it is compiled with besides, to an object of its own, so that no call of one is inlined into another.
const OBJECTS: [(&str, &str, Option<&str>); 5] = [
    ("plain", "plain.c", None),
    ("store", "store.c", None),
    ("core", "core.c", None),
    ("value", "value.c", None),
    ("valued", "core.c", Some("-DBY_VALUE")),
];

const HEADERS: [&str; 5] = [
    "plain.h",
    "read.h",
    "store.h",
    "value.h",
    "../include/tovridsa.h",
];

fn main() {
    for header in HEADERS {
        println!("cargo:rerun-if-changed={header}");
    }
    println!("cargo:rerun-if-env-changed=CC");
    println!("cargo:rerun-if-env-changed=AR");

    let out = env::var("OUT_DIR").expect("cargo sets OUT_DIR");
    let cc = env::var("CC").unwrap_or_else(|_| "gcc".to_string());
    let ar = env::var("AR").unwrap_or_else(|_| "ar".to_string());
    let archive = Path::new(&out).join("libplain.a");

    let mut packed = Command::new(&ar);
    packed.arg("crs").arg(&archive);
    for (name, source, flag) in OBJECTS {
        let object = Path::new(&out).join(format!("{name}.o"));
        println!("cargo:rerun-if-changed={source}");
        run(Command::new(&cc)
            .args(FLAGS)
            .args(flag)
            .args(["-c", source, "-o"])
            .arg(&object));
        packed.arg(object);
    }
    run(&mut packed);
    println!("cargo:rustc-link-search=native={out}");
    println!("cargo:rustc-link-lib=static=plain");
    // core.c calls the library, which the model links: it is named again, after the C, so that a linker that looks at each archive once finds it.
    println!("cargo:rustc-link-lib=static:-bundle=host");

    let rustc = env::var("RUSTC").expect("cargo sets RUSTC");
    println!("cargo:rustc-env=BENCH_CC={}", version(&cc));
    println!("cargo:rustc-env=BENCH_CC_FLAGS={}", FLAGS.join(" "));
    println!("cargo:rustc-env=BENCH_RUSTC={}", version(&rustc));
    println!(
        "cargo:rustc-env=BENCH_OPT_LEVEL={}",
        env::var("OPT_LEVEL").expect("cargo sets OPT_LEVEL")
    );
}

fn run(command: &mut Command) {
    match command.status() {
        Ok(status) if status.success() => (),
        Ok(status) => panic!("{command:?}: {status}"),
        Err(error) => panic!("{command:?}: {error}"),
    }
}

/// The first line that a compiler says of itself.
fn version(compiler: &str) -> String {
    let output = Command::new(compiler).arg("--version").output();
    let text = output
        .map(|o| String::from_utf8_lossy(&o.stdout).into_owned())
        .unwrap_or_default();
    text.lines().next().unwrap_or(compiler).to_string()
}

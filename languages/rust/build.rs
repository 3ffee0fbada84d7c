//! Links the calendar and its layers: the static libraries of the folder which `CALENDAR_FOLDER` names by its whole path, or else
//! the two C files made of them, which are compiled here. A package has these in `amalgamation/`, and a clone at its top.

use std::env;
use std::path::{Path, PathBuf};

/// A library: its name in a package, and the one that `rt lib` gives it.
const LIBRARIES: [[&str; 2]; 2] = [
    ["calendar", "calendar_c"],
    ["calendar_layers", "layers_c"],
];

fn main() {
    println!("cargo:rerun-if-env-changed=CALENDAR_FOLDER");
    if let Ok(named) = env::var("CALENDAR_FOLDER") {
        let folder = PathBuf::from(&named);
        // (each command of cargo reads a relative path from a folder of its own)
        assert!(
            folder.is_absolute(),
            "CALENDAR_FOLDER is no whole path: {named}"
        );
        refuse_other_machines();
        for names in &LIBRARIES {
            link(&folder, names);
        }
    } else {
        let folder = sources();
        for [name, _] in &LIBRARIES {
            compile(&folder, name);
        }
    }
}

/// Links a static library of a folder.
fn link(folder: &Path, names: &[&str]) {
    let found = names
        .iter()
        .find(|name| folder.join(format!("lib{name}.a")).exists());
    let Some(name) = found else {
        panic!(
            "\n\nThere is no lib{}.a in {}, which CALENDAR_FOLDER names.\n\n",
            names[0],
            folder.display()
        );
    };
    println!("cargo:rerun-if-changed={}/lib{name}.a", folder.display());
    println!("cargo:rustc-link-search=native={}", folder.display());
    println!("cargo:rustc-link-lib=static={name}");
}

/// The static libraries are machine code for one kind of machine.
fn refuse_other_machines() {
    let told = |name: &str| env::var(name).expect("cargo says what it builds for");
    let (system, machine) = (told("CARGO_CFG_TARGET_OS"), told("CARGO_CFG_TARGET_ARCH"));
    assert!(
        system == "linux" && machine == "x86_64",
        "the libraries of CALENDAR_FOLDER are machine code for Linux on x86-64, and this build is for {system} on {machine}; \
         without that variable the crate compiles C"
    );
}

/// The folder of the C files.
fn sources() -> PathBuf {
    let own =
        PathBuf::from(env::var("CARGO_MANIFEST_DIR").expect("cargo says where the crate lies"));
    let folders = [own.join("amalgamation"), own.join("../../amalgamation")];
    let found = folders.iter().find(|it| it.join("calendar.c").exists());
    let Some(folder) = found else {
        panic!(
            "\n\nThe C files of the calendar are missing. Looked for calendar.c in\n  {}\n  {}\n\
             `tools/dist amalgamation` makes them in a clone with the kit. CALENDAR_FOLDER names the folder of static libraries.\n\n",
            folders[0].display(),
            folders[1].display()
        );
    };
    folder.clone()
}

/// Compiles a C file, whose loops the compiler makes into vector code.
fn compile(folder: &Path, name: &str) {
    let file = folder.join(format!("{name}.c"));
    println!("cargo:rerun-if-changed={}", file.display());
    cc::Build::new()
        .file(file)
        .include(folder)
        .opt_level(3)
        .warnings(false)
        .compile(name);
}

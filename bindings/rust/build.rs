//! Finds the library for the processor and the kind of program that cargo builds, or the unproved library if no folder has the
//! proved one. If PARTMEM_DIR is set, it searches lib/ in that folder, and the folder itself. If not, it searches the folder that
//! pkg-config names, and then out/lib/ and out/ of the repository that has this crate.
use std::path::{Path, PathBuf};
use std::process::{exit, Command};
use std::{env, fs};

/// The processors that have libraries: how cargo names one, what the names of its libraries end with, and what tools/unproved
/// calls them, for programs and for kernels.
const PROCESSORS: [(&str, &str, [&str; 2]); 3] = [
    ("x86_64", "", ["library", "kernel"]),
    ("aarch64", "_arm64", ["arm64", "kernel_arm64"]),
    ("riscv64", "_riscv64", ["riscv64", "kernel_riscv64"]),
];

fn fail(why: &str, how: &str) -> ! {
    eprintln!("partmem: {why}: {how}");
    exit(1)
}

/// Returns what cargo says of the target, or an empty text.
fn of_target(name: &str) -> String {
    env::var(format!("CARGO_CFG_TARGET_{name}")).unwrap_or_default()
}

/// Returns the name of the target's library, and how an unproved one is built. Fails if the target has no library.
fn library_of_target() -> (String, String) {
    let (arch, endian, width) = (of_target("ARCH"), of_target("ENDIAN"), of_target("POINTER_WIDTH"));
    let processor = PROCESSORS.iter().find(|it| it.0 == arch && endian == "little" && width == "64");
    let (_, ending, builds) = processor.unwrap_or_else(|| {
        let target = format!("{arch}, {endian}-endian, with addresses of {width} bits");
        fail(&format!("no library for this target ({target})"), "use x86-64, little-endian AArch64 or 64-bit RISC-V")
    });
    let is_for_kernels = env::var_os("CARGO_FEATURE_KERNEL").is_some();
    let kind = if is_for_kernels { "_kernel" } else { "" };
    (format!("partmem{kind}{ending}"), builds[usize::from(is_for_kernels)].to_string())
}

/// Returns the first of these folders that has the library of this name, with the name.
fn find<'a>(folders: &[PathBuf], name: &'a str) -> Option<(PathBuf, &'a str)> {
    let found = folders.iter().find(|folder| folder.join(format!("lib{name}.a")).is_file())?;
    Some((found.clone(), name))
}

fn ask_pkg_config() -> Option<PathBuf> {
    let output = Command::new("pkg-config").args(["--variable=libdir", "partmem"]).output().ok()?;
    output.status.success().then(|| String::from_utf8_lossy(&output.stdout).trim_end().into())
}

/// Returns the folders that are searched, in order.
fn folders() -> Vec<PathBuf> {
    if let Some(named) = env::var_os("PARTMEM_DIR").map(PathBuf::from) {
        return vec![named.join("lib"), named];
    }
    let built = Path::new(&env::var_os("CARGO_MANIFEST_DIR").unwrap_or_default()).join("../../out");
    ask_pkg_config().into_iter().chain([built.join("lib"), built]).collect()
}

fn main() {
    println!("cargo:rerun-if-env-changed=PARTMEM_DIR\ncargo:rerun-if-env-changed=PKG_CONFIG_PATH");
    let (proved, build) = library_of_target();
    let unproved = format!("{proved}-unproved");
    let how = format!(
        "build it in the repository by `tools/unproved {build}`, which proves nothing and takes two minutes, or by `make test`; \
         or set PARTMEM_DIR to the absolute path of a folder with it, or of its prefix"
    );
    let folders = folders();
    let shown: Vec<_> = folders.iter().map(|folder| folder.display().to_string()).collect();
    let found = [&proved, &unproved].into_iter().find_map(|name| find(&folders, name));
    let (folder, name) = found.unwrap_or_else(|| fail(&format!("no lib{proved}.a in {}", shown.join(" or ")), &how));
    let folder = fs::canonicalize(folder).unwrap_or_else(|error| fail(&error.to_string(), &how));
    let library = folder.join(format!("lib{name}.a"));
    if name == unproved {
        println!("cargo:warning=links {}, which is not proved: there is no lib{proved}.a", library.display());
    }
    println!("cargo:rerun-if-changed={}", library.display());
    println!("cargo:rustc-link-search=native={}\ncargo:rustc-link-lib=static={name}", folder.display());
}

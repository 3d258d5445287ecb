//! Links the proved library, `libpie_c.a`, and with the feature `link` `libpie_link.a`. If `PIE_C_PREFIX` is set, both are those that
//! `make install PREFIX=..` or a package installed there, in `lib`, `lib64` or, for example, `lib/x86_64-linux-gnu`. Otherwise, in a repository in which
//! `bindings/c/library.py` built them, those are linked. Otherwise, and if `PIE_C_PREFIX` is empty, they are built from the assembly of the proved code
//! by the C compiler and `ar`. A package contains that assembly in `assembly/` (`make crate`); in the repository it is in `dist/`, for most processors compressed.
//!
//! The compiler is the first of these variables that is set, as with the crate `cc`: `CC_x86_64-unknown-linux-gnu` (the target), the same with `_` in
//! place of `-`, `HOST_CC` or, if the target is not the host, `TARGET_CC`, and `CC`. The archiver likewise, with `AR`. The defaults are `cc` and `ar`,
//! and for another processor, for example, `aarch64-linux-gnu-gcc` and `aarch64-linux-gnu-ar`.

use std::env;
use std::path::{Path, PathBuf};
use std::process::Command;

/// A processor that has assembly.
struct Processor {
    /// The folder of its assembly.
    name: &'static str,
    /// The prefix of its compiler in Debian, and the folder of its libraries below `lib`.
    prefix: &'static str,
    /// Has the library of links, whose structs contain pointers of 64 bits.
    has_links: bool,
}

/// A static library.
struct Library {
    /// Its name below a prefix.
    name: &'static str,
    /// Its crate in the repository, which names its file there.
    crate_name: &'static str,
    /// Its sources, beside the assembly of that crate.
    sources: &'static [&'static str],
}

const LINK: Library = Library { name: "pie_link", crate_name: "pie_link_c", sources: &["heap.c"] };
const CALLS: Library = Library { name: "pie_c", crate_name: "pie_c", sources: &[] };

fn main() {
    println!("cargo:rerun-if-env-changed=PIE_C_PREFIX");
    // (in link order: the link calls the other library)
    if env::var_os("CARGO_FEATURE_LINK").is_some() {
        assert!(processor().has_links, "the feature link needs 64-bit words, which {} does not have", processor().name);
        link(&LINK);
    }
    link(&CALLS);
}

fn link(library: &Library) {
    let (folder, name) = library.find();
    if folder != self::folder("OUT_DIR") {
        println!("cargo:rerun-if-changed={}", folder.join(file(name)).display());
    }
    println!("cargo:rustc-link-search=native={}", folder.display());
    println!("cargo:rustc-link-lib=static={name}");
}

fn file(name: &str) -> String {
    format!("lib{name}.a")
}

/// Returns a folder that cargo names.
fn folder(name: &str) -> PathBuf {
    PathBuf::from(env::var_os(name).unwrap_or_default())
}

/// Returns the target's processor.
fn processor() -> Processor {
    let about = |name: &str| env::var(format!("CARGO_CFG_TARGET_{name}")).unwrap_or_default();
    let (arch, width, endian, system) = (about("ARCH"), about("POINTER_WIDTH"), about("ENDIAN"), about("OS"));
    let (name, prefix) = match (arch.as_str(), width.as_str(), endian.as_str(), system.as_str()) {
        ("x86_64", "64", "little", "linux") => ("x86_64", "x86_64-linux-gnu"),
        ("aarch64", "64", "little", "linux") => ("aarch64", "aarch64-linux-gnu"),
        ("riscv64", "64", "little", "linux") => ("riscv64", "riscv64-linux-gnu"),
        ("arm", "32", "little", "linux") => ("armv7", "arm-linux-gnueabihf"),
        ("mips", "32", "little", "linux") => ("mipsel", "mipsel-linux-gnu"),
        _ => panic!("the assembly is for Linux on x86_64, aarch64, riscv64, armv7 and mipsel, and not for {}", env::var("TARGET").unwrap_or_default()),
    };
    Processor { name, prefix, has_links: width == "64" }
}

/// Returns a file of the assembly, or of its helpers: from the package, otherwise from the repository, in which `xz` decompresses it if necessary.
fn source(name: &str) -> PathBuf {
    let here = folder("CARGO_MANIFEST_DIR");
    let places = ["assembly", "../../dist"].map(|place| here.join(place));
    let compressed = format!("{name}.xz");
    let paths = places.iter().flat_map(|place| [name, &compressed].map(|file| place.join(processor().name).join(file)).into_iter().chain([place.join(name)]));
    let path = paths.into_iter().find(|path| path.exists());
    let path = path.unwrap_or_else(|| panic!("{name} for {} is neither in assembly/ of this crate nor in dist/ of its repository", processor().name));
    println!("cargo:rerun-if-changed={}", path.display());
    if !path.ends_with(&compressed) {
        return path;
    }
    let text = Command::new("xz").arg("-dc").arg(&path).output().ok().filter(|it| it.status.success());
    let text = text.unwrap_or_else(|| panic!("xz is needed to decompress {}", path.display()));
    let plain = folder("OUT_DIR").join(name);
    std::fs::write(&plain, text.stdout).unwrap_or_else(|it| panic!("{}: {it}", plain.display()));
    plain
}

/// Returns the value of the first variable that is set for a tool (`CC` or `AR`), from that of the target to that of all targets.
fn tool(name: &str) -> Option<String> {
    let (target, host) = (env::var("TARGET").unwrap_or_default(), env::var("HOST").unwrap_or_default());
    let side = if target == host { "HOST" } else { "TARGET" };
    let names = [format!("{name}_{target}"), format!("{name}_{}", target.replace('-', "_")), format!("{side}_{name}"), name.to_owned()];
    for name in &names {
        println!("cargo:rerun-if-env-changed={name}");
    }
    names.iter().find_map(|name| env::var(name).ok().filter(|it| !it.trim().is_empty()))
}

/// Runs the tool that the environment names, or the default for the target.
fn run(name: &str, arguments: &[&Path]) {
    let arch_of = |side: &str| env::var(side).unwrap_or_default().split('-').next().map(str::to_owned);
    let default = match (name, arch_of("TARGET") == arch_of("HOST")) {
        (_, true) => name.to_lowercase(),
        ("CC", false) => format!("{}-gcc", processor().prefix),
        (_, false) => format!("{}-{}", processor().prefix, name.to_lowercase()),
    };
    let command = tool(name).unwrap_or(default);
    let mut words = command.split_whitespace();
    let done = Command::new(words.next().unwrap_or_default()).args(words).args(arguments).status();
    assert!(done.is_ok_and(|it| it.success()), "{command} failed; {name} names another command");
}

impl Library {
    /// Returns the folder that has the library, and its name there.
    fn find(&self) -> (PathBuf, &'static str) {
        if let Some(prefix) = env::var_os("PIE_C_PREFIX").filter(|it| !it.is_empty()) {
            // (the first is the folder of `make install`, the last that of Debian's packages)
            let folders = ["lib".to_owned(), "lib64".to_owned(), format!("lib/{}", processor().prefix)];
            let found = folders.iter().map(|it| Path::new(&prefix).join(it)).find(|it| it.join(file(self.name)).exists());
            let folder = found.unwrap_or_else(|| {
                let names = folders.join(", ");
                panic!("PIE_C_PREFIX is {}, and no {} is in its folders {names}", Path::new(&prefix).display(), file(self.name))
            });
            return (folder, self.name);
        }
        let built = folder("CARGO_MANIFEST_DIR").join("../../crates").join(self.crate_name).join("out");
        if env::var_os("PIE_C_PREFIX").is_none() && processor().name == "x86_64" && built.join(file(self.crate_name)).exists() {
            return (built, self.crate_name);
        }
        (self.build(), self.name)
    }

    /// Builds it from the assembly, and returns the folder that it is in.
    fn build(&self) -> PathBuf {
        let out = folder("OUT_DIR");
        let archive = out.join(file(self.name));
        let _ = std::fs::remove_file(&archive);
        let assembly = self::source(&format!("{}.S", self.crate_name));
        let mut objects = vec![out.join(format!("{}.o", self.crate_name))];
        run("CC", &["-x".as_ref(), "assembler".as_ref(), "-c".as_ref(), "-o".as_ref(), &objects[0], &assembly]);
        for name in self.sources {
            let object = out.join(name).with_extension("o");
            run("CC", &["-O2".as_ref(), "-fPIC".as_ref(), "-c".as_ref(), "-o".as_ref(), &object, &self::source(name)]);
            objects.push(object);
        }
        let mut words: Vec<&Path> = vec!["rcD".as_ref(), &archive];
        words.extend(objects.iter().map(PathBuf::as_path));
        run("AR", &words);
        out
    }
}

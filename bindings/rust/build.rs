//! Links the proved static library and its heap: those of the folders SEMVER_LIB and RATTLE_C, those that came with this crate, or those of
//! the checkout that this crate is in.

use std::env;
use std::path::{Path, PathBuf};
use std::process::{exit, Command};

const LIBRARY: &str = "libsemver_c.a";
const HEAP: &str = "liblibc_c.a";

/// The folders of the library and its heap.
type Folders = (PathBuf, PathBuf);

fn given() -> Option<Folders> {
    Some((env::var_os("SEMVER_LIB")?.into(), env::var_os("RATTLE_C")?.into()))
}

fn bundled(here: &Path, target: &str) -> Option<Folders> {
    let folder = here.join("lib").join(target);
    folder.join(LIBRARY).exists().then(|| (folder.clone(), folder))
}

/// The folder `c` of the Rattle kit, whose command `rt doc` prints a page in the folder above.
fn kit() -> Option<PathBuf> {
    let printed = Command::new("rt").arg("doc").output().ok()?.stdout;
    Some(Path::new(std::str::from_utf8(&printed).ok()?.trim()).parent()?.join("c"))
}

fn built(here: &Path) -> Option<Folders> {
    let folder = here.join("../../crates/semver_c/out");
    folder.join(LIBRARY).exists().then_some(())?;
    Some((folder, kit()?))
}

fn main() {
    let here = PathBuf::from(env::var_os("CARGO_MANIFEST_DIR").expect("cargo sets it"));
    let target = env::var("TARGET").expect("cargo sets it");
    println!("cargo:rerun-if-env-changed=SEMVER_LIB");
    println!("cargo:rerun-if-env-changed=RATTLE_C");
    let Some((library, heap)) = given().or_else(|| bundled(&here, &target)).or_else(|| built(&here)) else {
        eprintln!("There is no {LIBRARY} for {target}. In a checkout, run `make` at the top, which needs the Rattle kit (rt); or take the");
        eprintln!("crate of a release; or set SEMVER_LIB and RATTLE_C to the folders of {LIBRARY} and {HEAP}.");
        exit(1);
    };
    for (folder, archive) in [(&library, LIBRARY), (&heap, HEAP)] {
        println!("cargo:rerun-if-changed={}", folder.join(archive).display());
        println!("cargo:rustc-link-search=native={}", folder.display());
    }
    println!("cargo:rustc-link-lib=static=semver_c");
    println!("cargo:rustc-link-lib=static=libc_c");
}

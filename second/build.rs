//! Links libcapi.a, libcapi_classroom.a and libcapi_lesson.a, the proved model, where all exist, and sets `cfg(capi)` then.
//! Their folder is CAPI_DIR; without that variable ../target/staticlib, and a missing archive is no error: what needs it is left out.
//! BEFORE_DIR is the folder of an earlier commit's libcapi.a, to be measured beside this one: linked too, `cfg(before)`.

use std::path::{Path, PathBuf};
use std::process::Command;

/// What libcapi.a defines: max3420e_ and these.
const FUNCTIONS: [&str; 5] = ["power_on", "transfer", "event", "board_step", "firmware_answer"];

fn main() {
    println!("cargo::rustc-check-cfg=cfg(capi)");
    println!("cargo::rustc-check-cfg=cfg(before)");
    println!("cargo::rerun-if-env-changed=CAPI_DIR");
    println!("cargo::rerun-if-env-changed=BEFORE_DIR");
    let named = std::env::var_os("CAPI_DIR").map(PathBuf::from);
    let folder = named.clone().unwrap_or_else(|| Path::new(env!("CARGO_MANIFEST_DIR")).join("../target/staticlib"));
    let archives = ["capi", "capi_classroom", "capi_lesson"].map(|name| (name, folder.join(format!("lib{name}.a"))));
    for (_, archive) in &archives {
        // Also where it is missing: cargo then looks again at every build.
        println!("cargo::rerun-if-changed={}", archive.display());
    }
    let earlier = std::env::var_os("BEFORE_DIR").map(|folder| Path::new(&folder).join("libcapi.a"));
    if let Some((_, missing)) = archives.iter().find(|(_, archive)| !archive.exists()) {
        if named.is_some() || earlier.is_some() {
            println!("cargo::error=CAPI_DIR or BEFORE_DIR is set, but there is no {}", missing.display());
        }
        return;
    }
    println!("cargo::rustc-cfg=capi");
    println!("cargo::rustc-link-search=native={}", folder.display());
    for (name, _) in &archives {
        println!("cargo::rustc-link-lib=static={name}");
    }
    if let Some(archive) = earlier {
        link_earlier(&archive);
    }
}

/// Links a copy with other names: before_ and the name.
fn link_earlier(archive: &Path) {
    println!("cargo::rerun-if-changed={}", archive.display());
    if !archive.exists() {
        println!("cargo::error=BEFORE_DIR is set, but there is no {}", archive.display());
        return;
    }
    let out = PathBuf::from(std::env::var_os("OUT_DIR").expect("cargo sets it"));
    let names = FUNCTIONS.map(|name| format!("--redefine-sym=max3420e_{name}=before_max3420e_{name}"));
    let copied = Command::new("objcopy").args(names).arg(archive).arg(out.join("libcapi_before.a")).status();
    if !copied.as_ref().is_ok_and(|status| status.success()) {
        println!("cargo::error=objcopy does not copy {}: {copied:?}", archive.display());
        return;
    }
    println!("cargo::rustc-cfg=before");
    println!("cargo::rustc-link-search=native={}", out.display());
    println!("cargo::rustc-link-lib=static=capi_before");
}

//! Links the archive that `rt lib` wrote in `crates/capi_c`, or the one that RUSZVEDOK_STATICLIB names (a relative path counts from the
//! repository's folder). What is missing is said in one line.
use std::env;
use std::fs;
use std::path::{Path, PathBuf};

/// Architectures as Cargo calls them and as an ELF file does.
const MACHINES: [(&str, u16); 4] = [("x86", 3), ("x86_64", 62), ("aarch64", 183), ("riscv64", 243)];

/// The machine of an archive's first ELF file.
fn machine(archive: &[u8]) -> Option<u16> {
    let mut rest = archive.strip_prefix(b"!<arch>\n")?;
    while rest.len() > 60 {
        let size: usize = std::str::from_utf8(&rest[48..58]).ok()?.trim().parse().ok()?;
        let file = rest.get(60..60 + size)?;
        if file.starts_with(b"\x7FELF") && file.len() > 20 {
            return Some(u16::from_le_bytes([file[18], file[19]]));
        }
        rest = rest.get(60 + size + size % 2..)?;
    }
    None
}

/// Puts the archive where it is linked from.
fn take(archive: &Path, out: &Path) -> Result<(), String> {
    let path = archive.display();
    let bytes = fs::read(archive)
        .map_err(|e| format!("no archive {path} ({e}): run `rt lib` in crates/capi_c, or set RUSZVEDOK_STATICLIB to its path"))?;
    let found = machine(&bytes).ok_or_else(|| format!("{path} is no archive of ELF files"))?;
    let name = MACHINES.iter().find(|(_, number)| *number == found).map_or("another architecture", |(name, _)| name);
    let target = env::var("CARGO_CFG_TARGET_ARCH").unwrap_or_default();
    if name != target {
        return Err(format!("{path} is for {name}, but the target is {target}"));
    }
    fs::write(out.join("libruszvedok_capi.a"), bytes).map_err(|e| format!("{}: {e}", out.display()))
}

fn main() {
    println!("cargo::rerun-if-env-changed=RUSZVEDOK_STATICLIB");
    let repository = PathBuf::from(env::var("CARGO_MANIFEST_DIR").expect("set by Cargo")).join("../..");
    let named = env::var("RUSZVEDOK_STATICLIB").unwrap_or_else(|_| "crates/capi_c/out/libcapi_c.a".into());
    let archive = repository.join(named);
    println!("cargo::rerun-if-changed={}", archive.display());
    let out = PathBuf::from(env::var("OUT_DIR").expect("set by Cargo"));
    match take(&archive, &out) {
        Ok(()) => {
            println!("cargo::rustc-link-search=native={}", out.display());
            println!("cargo::rustc-link-lib=static=ruszvedok_capi");
        }
        Err(missing) => println!("cargo::error={missing}"),
    }
}

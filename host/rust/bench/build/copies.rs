//! Copies of a library that can be linked into one binary, at different offsets modulo 64. Where
//! its code stands moves a library's times, so that one copy would speak for one binary alone.

use crate::run;
use std::fs;
use std::path::{Path, PathBuf};
use std::process::Command;

/// Bytes from a multiple of 64 to a copy's first function. A library's functions are aligned to
/// 16, so a linker that keeps them together has no other choice modulo 64.
const OFFSETS: [usize; 4] = [0, 16, 32, 48];

/// Writes the copies, numbered from 1, of a library that has these calls; the calls of copy 1 are
/// `z2z4_encode_1` and so on.
pub fn make(
    cc: &str,
    library: &Path,
    calls: &[&str],
    folder: &Path,
) -> Result<Vec<PathBuf>, String> {
    let name = library.file_stem().unwrap_or_default().to_string_lossy();
    let mut objects = vec![];
    for (number, offset) in (1..).zip(OFFSETS) {
        let object = folder.join(format!("{name}_{number}.o"));
        place(cc, library, offset, &object)?;
        rename(calls, number, &object)?;
        objects.push(object);
    }
    Ok(objects)
}

/// Puts all functions of an archive or object into one section, in their order, so that they keep
/// their distances from each other whatever is linked beside them. The section is aligned to 64,
/// and the bytes before the first function are inside of it, so that no linker can move them.
pub fn place(cc: &str, from: &Path, offset: usize, object: &Path) -> Result<(), String> {
    let script = object.with_extension("ld");
    let text = format!("SECTIONS {{ .text : ALIGN(64) {{ . += {offset}; *(.text .text.*) }} }}\n");
    fs::write(&script, text).map_err(|error| format!("{}: {error}", script.display()))?;
    let mut command = Command::new(cc);
    command.args(["-r", "-nostdlib", "-T"]).arg(&script);
    command.arg("-Wl,--whole-archive").arg(from);
    command.arg("-Wl,--no-whole-archive").arg("-o").arg(object);
    let problem = format!("could not place the functions of {}", from.display());
    run(&mut command, &problem)
}

/// Gives the calls the copy's number, and keeps every other name to the copy.
fn rename(calls: &[&str], number: usize, object: &Path) -> Result<(), String> {
    let mut command = Command::new("objcopy");
    for call in calls {
        let new = format!("{call}_{number}");
        command.arg(format!("--redefine-sym={call}={new}"));
        command.arg(format!("--keep-global-symbol={new}"));
    }
    run(command.arg(object), "could not rename the library's calls")
}

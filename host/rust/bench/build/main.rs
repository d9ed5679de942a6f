//! Compiles the program by tables (host/c/table.c), makes the copies of the libraries, and notes,
//! for the head of each report, which compilers and flags made the programs. The binary `bench` is
//! linked with libz2z4.a and the tables, `passes` with libtimed.a and `steps` with libsteps.a, which
//! stand beside it.

mod copies;

use std::env;
use std::fs;
use std::path::{Path, PathBuf};
use std::process::Command;

const CALLS: [&str; 4] = [
    "z2z4_encode",
    "z2z4_correct",
    "z2z4_combine",
    "z2z4_third_place",
];
const TIMED: [&str; 2] = ["timed_correct", "timed_two_passes"];
const STEPS: [&str; 3] = ["steps_correct", "steps_ask", "steps_commit"];
const FLAGS: [&str; 2] = ["-std=c99", "-O3"];
/// Where the code of the program by tables stands, see `copies::place`. Its times move too: of the
/// offsets that a linker can choose this was the quickest when they were tried, for every call but
/// the third place (docs/DECISIONS.md).
const TABLES_AT: usize = 48;

fn main() {
    let cc = env::var("CC").unwrap_or_else(|_| "cc".into());
    println!("cargo::rerun-if-env-changed=CC");
    let library = PathBuf::from(env::var("DEP_Z2Z4_LIBRARY").expect("set by the crate calls"));
    let [timed, steps] = ["libtimed.a", "libsteps.a"].map(|name| library.with_file_name(name));
    for file in [&library, &timed, &steps] {
        println!("cargo::rerun-if-changed={}", file.display());
    }
    link("bench", programs(&cc, &library));
    link("passes", exported(&cc, &timed, &TIMED));
    link("steps", exported(&cc, &steps, &STEPS));
    let rustc = env::var("RUSTC").expect("set by cargo");
    let level = env::var("OPT_LEVEL").expect("set by cargo");
    note("BENCH_CC", &format!("{} {}", version(&cc), FLAGS.join(" ")));
    note(
        "BENCH_RUSTC",
        &format!("{} opt-level={level}", version(&rustc)),
    );
    note("BENCH_LIBRARY", &maker(&library));
    note("BENCH_TIMED", &maker(&timed));
    note("BENCH_STEPS", &maker(&steps));
}

fn link(binary: &str, objects: Result<Vec<PathBuf>, String>) {
    match objects {
        Err(problem) => println!("cargo::error={problem}"),
        Ok(objects) => objects
            .iter()
            .for_each(|object| println!("cargo::rustc-link-arg-bin={binary}={}", object.display())),
    }
}

fn folder() -> PathBuf {
    PathBuf::from(env::var("OUT_DIR").expect("set by cargo"))
}

/// What `bench` is linked with.
fn programs(cc: &str, library: &Path) -> Result<Vec<PathBuf>, String> {
    let mut objects = copies::make(cc, library, &CALLS, &folder())?;
    objects.push(compile(cc, &folder())?);
    Ok(objects)
}

/// What `passes` or `steps` is linked with: the calls of a crate that only this benchmark uses.
fn exported(cc: &str, library: &Path, calls: &[&str]) -> Result<Vec<PathBuf>, String> {
    if !library.is_file() {
        let file = library.display();
        return Err(format!("there is no {file}: `make bench` builds it"));
    }
    copies::make(cc, library, calls, &folder())
}

/// The program by tables.
fn compile(cc: &str, folder: &Path) -> Result<PathBuf, String> {
    let root = Path::new(env!("CARGO_MANIFEST_DIR")).join("../../..");
    for file in ["host/c/table.c", "host/c/table.h", "include/z2z4.h"] {
        println!("cargo::rerun-if-changed={}", root.join(file).display());
    }
    let (compiled, placed) = (folder.join("table.o"), folder.join("placed.o"));
    let mut command = Command::new(cc);
    command.args(FLAGS).arg("-I").arg(root.join("include"));
    command.arg("-c").arg(root.join("host/c/table.c"));
    run(
        command.arg("-o").arg(&compiled),
        "could not compile host/c/table.c",
    )?;
    copies::place(cc, &compiled, TABLES_AT, &placed)?;
    Ok(placed)
}

/// Runs a tool; the problem is one line that names it.
fn run(command: &mut Command, problem: &str) -> Result<(), String> {
    let tool = command.get_program().to_string_lossy().into_owned();
    match command.status() {
        Err(error) => Err(format!(
            "the benchmark needs {tool} on the PATH to be built: {error}"
        )),
        Ok(status) if !status.success() => Err(format!("{tool} {problem}")),
        Ok(_) => Ok(()),
    }
}

fn note(name: &str, text: &str) {
    println!("cargo::rustc-env={name}={text}");
}

/// The first line of what the compiler says of itself.
fn version(compiler: &str) -> String {
    let output = Command::new(compiler).arg("--version").output();
    let text = output.map(|output| String::from_utf8_lossy(&output.stdout).into_owned());
    let line = text
        .ok()
        .and_then(|text| text.lines().next().map(str::to_owned));
    line.unwrap_or_else(|| format!("{compiler} of unknown version"))
}

/// What the library's object file says of the compiler that made it.
fn maker(library: &Path) -> String {
    const MARK: &[u8] = b"rattle ";
    let bytes = fs::read(library).unwrap_or_default();
    let start = bytes.windows(MARK.len()).position(|part| part == MARK);
    let text = start.map(|start| bytes[start..].split(|&byte| byte == 0).next());
    match text.flatten() {
        Some(text) => String::from_utf8_lossy(text).into_owned(),
        None => "a compiler that it does not name".into(),
    }
}

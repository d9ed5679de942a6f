//! One run of a program: what it is given, and what it has to print.

use second::sheet;
use std::ffi::OsString;
use std::io::{self, ErrorKind, Write};
use std::process::{ChildStdin, Command, Output, Stdio};
use std::thread;
use std::time::Duration;

/// Between two pieces of an input: long enough for a program to read the first alone.
const PAUSE: Duration = Duration::from_millis(100);

/// Gives the program the input, so many bytes at a time, and tells where it is wrong.
pub fn check(program: &[OsString], input: &[u8], piece: usize) -> Result<(), String> {
    let ran = run(program, input, piece).map_err(|error| format!("cannot be run: {error}"))?;
    let given = shown(input);
    if !ran.status.success() {
        return Err(format!("given {given} ends with {}", ran.status));
    }
    let (printed, due) = (ran.stdout, sheet::text(input).into_bytes());
    if printed != due {
        let alike = printed.iter().zip(&due).take_while(|(is, due)| is == due);
        let from = alike.count();
        let (is, due) = (shown(&printed[from..]), shown(&due[from..]));
        return Err(format!(
            "given {given} prints, from byte {} on, {is}, and not {due}",
            from + 1
        ));
    }
    Ok(())
}

fn run(program: &[OsString], input: &[u8], piece: usize) -> io::Result<Output> {
    let mut child = Command::new(&program[0])
        .args(&program[1..])
        .stdin(Stdio::piped())
        .stdout(Stdio::piped())
        .spawn()?;
    let stdin = child.stdin.take().expect("piped");
    // Both at a time, so that neither side waits for the other with a pipe full.
    thread::scope(|scope| {
        let given = scope.spawn(move || give(stdin, input, piece));
        let printed = child.wait_with_output();
        given.join().expect("no panic")?;
        printed
    })
}

/// The end of the input is the pipe's, which is closed here.
fn give(mut stdin: ChildStdin, input: &[u8], piece: usize) -> io::Result<()> {
    for (index, part) in input.chunks(piece).enumerate() {
        if index > 0 {
            thread::sleep(PAUSE);
        }
        match stdin.write_all(part) {
            // It is free to stop reading where it knows its answer.
            Err(error) if error.kind() == ErrorKind::BrokenPipe => break,
            written => written?,
        }
    }
    Ok(())
}

/// At most forty bytes, and how many there are in all.
fn shown(bytes: &[u8]) -> String {
    match bytes.get(..40) {
        Some(front) => format!("\"{}..\" ({} bytes)", front.escape_ascii(), bytes.len()),
        None => format!("\"{}\"", bytes.escape_ascii()),
    }
}

#[cfg(test)]
mod tests {
    use super::*;

    fn told(script: &str, input: &[u8]) -> Result<(), String> {
        check(&["sh", "-c", script].map(OsString::from), input, 200_000)
    }

    /// Neither side may wait for the other: this one prints more than a pipe holds, then reads as
    /// much, or nothing.
    #[test]
    fn full_pipes() {
        for script in [
            "yes | head -c 200000; cat >/dev/null",
            "yes | head -c 200000",
        ] {
            let fault = told(script, &[b'x'; 200_000]).expect_err("not a sheet");
            assert!(fault.contains("xx..\" (200000 bytes) prints"), "{fault}");
            assert!(fault.ends_with("y\\n..\" (200000 bytes), and not \"refused 7\\n\""));
        }
    }

    #[test]
    fn what_is_told() {
        assert_eq!(told("echo refused 7", b"x"), Ok(()));
        assert_eq!(
            told(":", b"x"),
            Err("given \"x\" prints, from byte 1 on, \"\", and not \"refused 7\\n\"".into())
        );
        assert_eq!(
            told("echo refused 1", b"\n"),
            Err("given \"\\n\" prints, from byte 9 on, \"1\\n\", and not \"7\\n\"".into())
        );
        assert_eq!(
            told("echo refused 7; exit 3", b"3"),
            Err("given \"3\" ends with exit status: 3".into())
        );
    }
}

// judge.rs: judges the set on standard input, and prints its type, bytes and lines, or why it is refused.
//   rustc -L LIB judge.rs, LIB being the folder of libgdt.a; then judge <FILE
//   status 0: accepted. 1: refused. 2: standard input cannot be read, or standard output not written; standard error says why.
// If standard output is closed, Rust has put /dev/null in its place before `main`: the status is then that of the set.
// Bytes after the set are another set, and are not judged. docs/RUST.md has the other calls.
use std::io::{Error, Read, Write};
use std::process::ExitCode;

#[repr(C)]
struct Judged {
    no: usize,
    place: usize,
    label: usize,
    length: usize,
    lines: usize,
    set_type: usize,
}

#[link(name = "gdt", kind = "static")]
extern "C" {
    fn gdt_judge(set: *const u8, set_length: usize) -> Judged;
}

// println! and eprintln! would panic if they cannot write.
fn print(line: &str) -> Result<(), Error> {
    let mut out = std::io::stdout();
    writeln!(out, "{line}")?;
    out.flush()
}

fn trouble(what: &str, error: Error) -> ExitCode {
    let _ = writeln!(std::io::stderr(), "judge: {what}: {error}");
    ExitCode::from(2)
}

fn main() -> ExitCode {
    let mut set = Vec::new();
    if let Err(error) = std::io::stdin().read_to_end(&mut set) {
        return trouble("standard input cannot be read", error);
    }
    // SAFETY: the bytes are there for the time of the call; the pointer of an empty Vec is not null.
    let judged = unsafe { gdt_judge(set.as_ptr(), set.len()) };
    let answer = if judged.no != 0 {
        format!("refused by {} at place {}, label {}", judged.no, judged.place, judged.label)
    } else {
        format!("type {}, {} bytes, {} lines", judged.set_type, judged.length, judged.lines)
    };
    match print(&answer) {
        Ok(()) => ExitCode::from(u8::from(judged.no != 0)),
        Err(error) => trouble("standard output cannot be written", error),
    }
}

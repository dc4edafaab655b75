//! Prints the lines of a command's output as they come, and ends with its status.
//!
//!     cargo run --example child_output -- COMMAND ARGUMENT..
//!
//! A read of a child's output blocks. Therefore a thread makes it, straight into the memory of a pipe, from
//! which a task takes the lines. What the child wrote before its end is printed, even if it was killed.

use std::io::{self, Read, Write};
use std::os::unix::process::ExitStatusExt;
use std::process::{Command, ExitCode, Stdio};
use std::thread;

use futures_lite::future::{block_on, poll_fn};
use futures_lite::{AsyncBufReadExt, StreamExt};
use piper::{Reader, Writer};

/// Reads into the pipe until the end of the source, or until the reader is gone.
fn pump(mut source: impl Read, mut writer: Writer) -> io::Result<()> {
    block_on(async {
        while poll_fn(|cx| writer.poll_fill(cx, &mut source)).await? > 0 {}
        Ok(())
    })
}

async fn print_lines(reader: Reader) -> io::Result<()> {
    let mut lines = reader.split(b'\n');
    let mut output = io::stdout();
    while let Some(line) = lines.next().await {
        output.write_all(b"> ")?;
        output.write_all(&line?)?;
        output.write_all(b"\n")?;
        output.flush()?;
    }
    Ok(())
}

fn main() -> io::Result<ExitCode> {
    let mut words = std::env::args_os().skip(1);
    let Some(command) = words.next() else {
        eprintln!("usage: child_output COMMAND ARGUMENT..");
        return Ok(ExitCode::from(2));
    };
    let mut child = Command::new(command).args(words).stdout(Stdio::piped()).spawn()?;
    let output = child.stdout.take().expect("the output is piped");
    let (reader, writer) = piper::pipe(64 * 1024);
    let pumping = thread::spawn(move || pump(output, writer));
    block_on(print_lines(reader))?;
    pumping.join().expect("a pump doesn't panic")?;
    let status = child.wait()?;
    println!("{status}");
    let code = status.code().or(status.signal().map(|it| 128 + it));
    Ok(ExitCode::from(code.unwrap_or(1) as u8))
}

//! Requests and answers over two pipes under `tokio`, whose traits come by `tokio_util::compat`.

use std::io;

use piper::pipe;
use tokio::io::{AsyncBufReadExt, AsyncRead, AsyncWrite, AsyncWriteExt, BufReader};
use tokio_util::compat::{FuturesAsyncReadCompatExt, FuturesAsyncWriteCompatExt};

/// Answers each line with its length, until the client ends.
async fn serve(reader: impl AsyncRead + Unpin, mut writer: impl AsyncWrite + Unpin) -> io::Result<()> {
    let mut lines = BufReader::new(reader).lines();
    while let Some(line) = lines.next_line().await? {
        writer.write_all(format!("{}\n", line.len()).as_bytes()).await?;
    }
    writer.shutdown().await
}

async fn ask(reader: impl AsyncRead + Unpin, mut writer: impl AsyncWrite + Unpin) -> io::Result<()> {
    let mut answers = BufReader::new(reader).lines();
    for request in ["a request", "another, longer than the pipe", ""] {
        writer.write_all(format!("{request}\n").as_bytes()).await?;
        let answer = answers.next_line().await?.unwrap_or_default();
        println!("{request}: {answer}");
    }
    writer.shutdown().await?;
    assert_eq!(answers.next_line().await?, None, "nothing comes unasked");
    Ok(())
}

fn main() -> io::Result<()> {
    let runtime = tokio::runtime::Builder::new_current_thread().build()?;
    runtime.block_on(async {
        let ((requests, asking), (answers, serving)) = (pipe(8), pipe(8));
        let server = tokio::spawn(serve(requests.compat(), serving.compat_write()));
        ask(answers.compat(), asking.compat_write()).await?;
        server.await?
    })
}

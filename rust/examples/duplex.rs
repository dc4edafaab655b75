//! A stream in memory, of two pipes, in place of a socket: a protocol of requests and answers is
//! tried without a network.

use std::io;
use std::pin::Pin;
use std::task::{Context, Poll};

use futures_lite::future::{block_on, zip};
use futures_lite::io::{split, BufReader};
use futures_lite::{AsyncBufReadExt, AsyncRead, AsyncWrite, AsyncWriteExt, StreamExt};
use piper::{pipe, Reader, Writer};

/// One end of a stream of two directions.
pub struct Duplex {
    reader: Reader,
    writer: Writer,
}

/// Both ends of a stream that holds so many bytes in each direction.
pub fn duplex(capacity: usize) -> (Duplex, Duplex) {
    let ((left_reader, right_writer), (right_reader, left_writer)) = (pipe(capacity), pipe(capacity));
    let left = Duplex { reader: left_reader, writer: left_writer };
    let right = Duplex { reader: right_reader, writer: right_writer };
    (left, right)
}

impl AsyncRead for Duplex {
    fn poll_read(mut self: Pin<&mut Self>, cx: &mut Context<'_>, to: &mut [u8]) -> Poll<io::Result<usize>> {
        Pin::new(&mut self.reader).poll_read(cx, to)
    }
}

impl AsyncWrite for Duplex {
    fn poll_write(mut self: Pin<&mut Self>, cx: &mut Context<'_>, from: &[u8]) -> Poll<io::Result<usize>> {
        Pin::new(&mut self.writer).poll_write(cx, from)
    }

    fn poll_flush(mut self: Pin<&mut Self>, cx: &mut Context<'_>) -> Poll<io::Result<()>> {
        Pin::new(&mut self.writer).poll_flush(cx)
    }

    fn poll_close(mut self: Pin<&mut Self>, cx: &mut Context<'_>) -> Poll<io::Result<()>> {
        Pin::new(&mut self.writer).poll_close(cx)
    }
}

/// Answers each line with its words in the other order, until the client ends.
pub async fn serve(stream: impl AsyncRead + AsyncWrite + Unpin) -> io::Result<()> {
    let (reader, mut writer) = split(stream);
    let mut lines = BufReader::new(reader).lines();
    while let Some(line) = lines.next().await {
        let words: Vec<_> = line?.split(' ').rev().map(str::to_owned).collect();
        writer.write_all(words.join(" ").as_bytes()).await?;
        writer.write_all(b"\n").await?;
    }
    writer.close().await
}

/// Sends one request after another, and returns the answers.
pub async fn ask(stream: impl AsyncRead + AsyncWrite + Unpin, requests: &[&str]) -> io::Result<Vec<String>> {
    let (reader, mut writer) = split(stream);
    let mut lines = BufReader::new(reader).lines();
    let mut answers = Vec::new();
    for request in requests {
        writer.write_all(request.as_bytes()).await?;
        writer.write_all(b"\n").await?;
        answers.extend(lines.next().await.transpose()?);
    }
    writer.close().await?;
    assert!(lines.next().await.is_none(), "nothing comes unasked");
    Ok(answers)
}

fn main() -> io::Result<()> {
    // Eight bytes in each direction: every line waits for the other side.
    let (client, server) = duplex(8);
    let requests = ["bytes of pipe a", "one", ""];
    let (served, answers) = block_on(zip(serve(server), ask(client, &requests)));
    served?;
    for answer in answers? {
        println!("{answer}");
    }
    Ok(())
}

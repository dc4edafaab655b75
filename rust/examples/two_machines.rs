//! A pipe whose sides are on two machines: pipe, TCP, pipe. Here both halves run over the loopback.
//!
//! A full pipe at one machine fills the connection, which fills the pipe at the other: the writer waits.
//! The end travels as the end of the stream. If the reader is dropped or the connection breaks, the near
//! half ends with the error, and drops its side of the pipe. The other side hears that.

use std::io;
use std::net::Ipv4Addr;

use futures_lite::{AsyncReadExt, AsyncWriteExt as _};
use piper::{pipe, Reader, Writer};
use tokio::io::{copy, AsyncWriteExt as _};
use tokio::net::{TcpListener, TcpStream};
use tokio_util::compat::{FuturesAsyncReadCompatExt, FuturesAsyncWriteCompatExt};

/// At the machine of the writer: all that comes out of the pipe goes to the other machine.
async fn send(reader: Reader, mut stream: TcpStream) -> io::Result<u64> {
    let count = copy(&mut reader.compat(), &mut stream).await?;
    stream.shutdown().await?;
    Ok(count)
}

/// At the machine of the reader: all that comes goes into the pipe.
async fn receive(mut stream: TcpStream, writer: Writer) -> io::Result<u64> {
    let mut writer = writer.compat_write();
    copy(&mut stream, &mut writer).await
}

async fn run(is_cut: bool) -> io::Result<()> {
    let listener = TcpListener::bind((Ipv4Addr::LOCALHOST, 0)).await?;
    let (near_reader, mut writer) = pipe(16_384);
    let sending = tokio::spawn(send(near_reader, TcpStream::connect(listener.local_addr()?).await?));
    let (mut reader, far_writer) = pipe(16_384);
    let receiving = tokio::spawn(receive(listener.accept().await?.0, far_writer));

    let writing = tokio::spawn(async move {
        let bytes: Vec<u8> = (0..20_000_000u32).map(|n| (n % 251) as u8).collect();
        writer.write_all(&bytes).await
    });
    let mut came = vec![0; 100_000];
    reader.read_exact(&mut came).await?;
    if is_cut {
        drop(reader);
    } else {
        let mut place = [0; 16_384];
        while let count @ 1.. = reader.read(&mut place).await? {
            came.extend_from_slice(&place[..count]);
        }
    }
    let is_whole = came.iter().zip(0..).all(|(byte, n)| u32::from(*byte) == n % 251);
    let went_well = (sending.await?.is_ok(), receiving.await?.is_ok(), writing.await?.is_ok());
    println!("{} bytes came, as sent: {is_whole}; send, receive, write: {went_well:?}", came.len());
    Ok(())
}

fn main() -> io::Result<()> {
    let runtime = tokio::runtime::Builder::new_current_thread().enable_io().build()?;
    runtime.block_on(run(false))?;
    runtime.block_on(run(true))
}

//! Two tasks on an executor of three threads: it polls them in any of these.

use async_channel::unbounded;
use async_executor::Executor;
use easy_parallel::Parallel;
use futures_lite::future::{block_on, zip};
use futures_lite::{AsyncReadExt, AsyncWriteExt};
use piper::pipe;

#[test]
fn two_tasks_of_an_executor_send_and_receive() {
    let (mut reader, mut writer) = pipe(16);
    let executor = Executor::new();
    let (running, stopped) = unbounded::<()>();
    let bytes: Vec<u8> = (0..2_000).map(|it| it as u8).collect();
    let sent = bytes.clone();
    let sending = executor.spawn(async move { writer.write_all(&sent).await.unwrap() });
    let receiving = executor.spawn(async move {
        let mut came = Vec::new();
        reader.read_to_end(&mut came).await.unwrap();
        came
    });
    let (_, came) = Parallel::new().each(0..3, |_| block_on(executor.run(stopped.recv())).is_err()).finish(|| {
        let (_, came) = block_on(zip(sending, receiving));
        drop(running);
        came
    });
    assert_eq!(came, bytes);
}

//! Two threads, one at each side, of which one goes on at a time: before each access of a word that both share it is
//! drawn, or listed, who goes on. No byte and no wake is lost, whatever the schedule.
//!
//! It is built with `--cfg piper_schedules`: `rust/schedules.sh` does so, and plants faults that it has to find.
#![cfg(piper_schedules)]

mod common;

use common::{number, Numbers};
use piper::{pipe, Reader, Writer, BEFORE_ACCESS};
use std::cell::RefCell;
use std::sync::{Arc, Condvar, Mutex};
use std::task::{Context, Poll, Wake, Waker};
use std::thread;

const READS: usize = 0;
const WRITES: usize = 1;

#[derive(Clone, Copy, PartialEq)]
enum Is {
    Starting,
    Running,
    Asleep,
    Done,
}

/// Who goes on at each access.
#[derive(Clone)]
enum Plan {
    Drawn(usize),
    /// The other thread goes on at these accesses, if it can.
    SwitchesAt(Vec<usize>),
}

struct State {
    turn: usize,
    is: [Is; 2],
    was_woken: [bool; 2],
    plan: Plan,
    draws: Numbers,
    accesses: usize,
    /// Nobody can go on, and somebody sleeps.
    is_stuck: bool,
}

struct Board {
    state: Mutex<State>,
    changed: Condvar,
}

impl State {
    /// Gives the turn to who goes on.
    fn go_on(&mut self) {
        let able = [READS, WRITES].map(|it| self.is[it] == Is::Running);
        self.accesses += 1;
        self.turn = match (able, &self.plan) {
            ([false, false], _) => {
                self.is_stuck = self.is.contains(&Is::Asleep);
                return;
            }
            ([true, false], _) => READS,
            ([false, true], _) => WRITES,
            (_, Plan::Drawn(_)) => self.draws.below(2),
            (_, Plan::SwitchesAt(places)) if places.contains(&self.accesses) => 1 - self.turn,
            _ => self.turn,
        };
    }
}

impl Board {
    fn new(plan: Plan) -> Arc<Board> {
        let seed = if let Plan::Drawn(seed) = plan { seed } else { 0 };
        let state = State {
            turn: READS,
            is: [Is::Starting; 2],
            was_woken: [false; 2],
            plan,
            draws: Numbers::new(seed),
            accesses: 0,
            is_stuck: false,
        };
        Arc::new(Board { state: Mutex::new(state), changed: Condvar::new() })
    }

    /// Stops a thread until it is its turn. It returns false if that never comes.
    fn pass(&self, me: usize, to: Is) -> bool {
        let mut state = self.state.lock().unwrap();
        let was_starting = state.is.contains(&Is::Starting);
        state.is[me] = to;
        if to == Is::Asleep && std::mem::take(&mut state.was_woken[me]) {
            // Who asked for another poll lets the other go on first.
            state.is[me] = Is::Running;
            state.turn = if state.is[1 - me] == Is::Running { 1 - me } else { me };
        } else if !state.is.contains(&Is::Starting) {
            state.go_on();
            if was_starting {
                state.turn = READS;
            }
        }
        self.changed.notify_all();
        let has_turn =
            |state: &State| state.turn == me && state.is[me] == Is::Running && !state.is.contains(&Is::Starting);
        while to != Is::Done && !state.is_stuck && !has_turn(&state) {
            state = self.changed.wait(state).unwrap();
        }
        !state.is_stuck
    }
}

thread_local! {
    static ME: RefCell<Option<(usize, Arc<Board>)>> = const { RefCell::new(None) };
}

fn stops() {
    let me = ME.with_borrow(|me| me.clone());
    if let Some((me, board)) = me {
        board.pass(me, Is::Running);
    }
}

/// Runs one thread's part, stopped at each access.
fn stopped<A>(me: usize, board: Arc<Board>, part: impl FnOnce(&Task) -> A) -> A {
    ME.set(Some((me, board.clone())));
    board.pass(me, Is::Running);
    part(&Task(me, board))
}

/// A thread's part. Once it is done, or panics, the other thread has all turns.
struct Task(usize, Arc<Board>);

impl Drop for Task {
    fn drop(&mut self) {
        ME.set(None);
        self.1.pass(self.0, Is::Done);
    }
}

/// Its waker.
struct Wakes(usize, Arc<Board>);

impl Wake for Wakes {
    fn wake(self: Arc<Self>) {
        self.wake_by_ref();
    }

    fn wake_by_ref(self: &Arc<Self>) {
        let mut state = self.1.state.lock().unwrap();
        match state.is[self.0] {
            Is::Asleep => state.is[self.0] = Is::Running,
            _ => state.was_woken[self.0] = true,
        }
    }
}

impl Task {
    /// Polls until there is a result: none if nobody can go on.
    fn until<A>(&self, mut poll: impl FnMut(&mut Context<'_>) -> Poll<A>) -> Option<A> {
        let waker = Waker::from(Arc::new(Wakes(self.0, self.1.clone())));
        loop {
            match poll(&mut Context::from_waker(&waker)) {
                Poll::Ready(done) => return Some(done),
                Poll::Pending if self.1.pass(self.0, Is::Asleep) => {}
                Poll::Pending => return None,
            }
        }
    }
}

/// Writes some of the bytes. It says how many, or 0 if the pipe is closed.
type Write = fn(&Task, &mut Writer, &[u8]) -> Option<usize>;

fn write_in_place(task: &Task, writer: &mut Writer, bytes: &[u8]) -> Option<usize> {
    if !task.until(|cx| writer.poll(cx))? {
        return Some(0);
    }
    let room = writer.write_buf(bytes.len().min(2));
    let count = room.len();
    room.copy_from_slice(&bytes[..count]);
    writer.produced(count);
    Some(count)
}

fn write_copies(task: &Task, writer: &mut Writer, bytes: &[u8]) -> Option<usize> {
    task.until(|cx| writer.poll_fill_bytes(cx, bytes))
}

/// Reads some bytes: none at the end.
type Read = fn(&Task, &mut Reader) -> Option<Vec<u8>>;

fn read_in_place(task: &Task, reader: &mut Reader) -> Option<Vec<u8>> {
    task.until(|cx| reader.poll(cx))?;
    let shown = reader.peek_buf().to_vec();
    reader.consume(shown.len());
    Some(shown)
}

fn read_copies(task: &Task, reader: &mut Reader) -> Option<Vec<u8>> {
    let mut place = [0; 3];
    let count = task.until(|cx| reader.poll_drain_bytes(cx, &mut place))?;
    Some(place[..count].to_vec())
}

/// What both threads do.
#[derive(Clone, Copy)]
struct Case {
    capacity: usize,
    /// How many bytes are written.
    count: usize,
    /// After how many the reader goes.
    stop: usize,
    write: Write,
    read: Read,
}

/// Makes one run. It returns how many accesses there were, or what went wrong.
fn run(case: Case, plan: Plan) -> Result<usize, &'static str> {
    let board = Board::new(plan);
    let (mut reader, mut writer) = pipe(case.capacity);
    let (of_reader, of_writer) = (board.clone(), board.clone());
    let reading = thread::spawn(move || {
        stopped(READS, of_reader, |task| {
            let mut came = Vec::new();
            while came.len() < case.stop {
                match (case.read)(task, &mut reader)? {
                    bytes if bytes.is_empty() => break,
                    bytes => came.extend(bytes),
                }
            }
            drop(reader);
            Some(came)
        })
    });
    let writing = thread::spawn(move || {
        stopped(WRITES, of_writer, |task| {
            let bytes: Vec<u8> = (0..case.count as u8).collect();
            let mut sent = 0;
            while sent < case.count {
                match (case.write)(task, &mut writer, &bytes[sent..])? {
                    0 => break,
                    count => sent += count,
                }
            }
            drop(writer);
            Some(sent)
        })
    });
    let (Ok(Some(came)), Ok(Some(sent))) = (reading.join(), writing.join()) else {
        return Err("nobody can go on, or a call panicked");
    };
    let goes_early = case.stop < case.count;
    if came.iter().copied().ne(0..came.len() as u8) || sent < came.len() {
        return Err("the bytes differ");
    }
    if !goes_early && (came.len(), sent) != (case.count, case.count) {
        return Err("bytes are lost");
    }
    // Each waker has a share of the board.
    match Arc::strong_count(&board) {
        1 => Ok(board.state.lock().unwrap().accesses),
        _ => Err("a waker is left"),
    }
}

const FORMS: [(Write, Read); 4] = [
    (write_in_place, read_in_place),
    (write_in_place, read_copies),
    (write_copies, read_in_place),
    (write_copies, read_copies),
];

#[test]
fn drawn_schedules_lose_nothing() {
    let _ = BEFORE_ACCESS.set(stops);
    for seed in 1..=number("PIPER_TEST_SCHEDULES", 10_000) {
        let (write, read) = FORMS[seed % 4];
        let stop = if seed % 5 == 0 { 4 } else { usize::MAX };
        let case = Case { capacity: 1 + seed % 3, count: 12, stop, write, read };
        if let Err(wrong) = run(case, Plan::Drawn(seed)) {
            panic!("schedule {seed}: {wrong}");
        }
    }
}

#[test]
fn each_schedule_of_two_switches_loses_nothing() {
    let _ = BEFORE_ACCESS.set(stops);
    let (write, read) = FORMS[0];
    let mut runs = 0;
    for (capacity, count, stop) in [(1, 2, usize::MAX), (2, 3, usize::MAX), (1, 2, 1)] {
        let case = Case { capacity, count, stop, write, read };
        let usual = run(case, Plan::SwitchesAt(Vec::new())).unwrap();
        for first in 0..usual + 20 {
            for second in first..usual + 20 {
                if let Err(wrong) = run(case, Plan::SwitchesAt(vec![first, second])) {
                    panic!("switches at {first}, {second}: {wrong}");
                }
                runs += 1;
            }
        }
    }
    println!("{runs} schedules of at most two switches");
}

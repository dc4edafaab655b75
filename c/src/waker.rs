//! A waker of C: a datum, and what is done with it.

use core::ffi::c_void;
use core::mem::ManuallyDrop;
use core::task::{Context, RawWaker, RawWakerVTable, Waker};

/// What is done with a datum. The header asks that any thread may call these.
#[repr(C)]
pub struct piper_calls {
    clone: extern "C" fn(*mut c_void) -> *mut c_void,
    wake: extern "C" fn(*mut c_void),
    drop: extern "C" fn(*mut c_void),
}

/// A waker. One that a caller lends lies on the stack of its poll, and one that a pipe keeps in a box.
#[repr(C)]
pub struct piper_waker {
    datum: *mut c_void,
    calls: &'static piper_calls,
}

impl piper_waker {
    /// Polls with this waker.
    pub(crate) fn poll<A>(self, poll: impl FnOnce(&mut Context<'_>) -> A) -> A {
        // SAFETY: the functions of the table take the address of a waker. This one lives as long as the poll, and is not dropped.
        let lent = ManuallyDrop::new(unsafe { Waker::new((&raw const self).cast(), &TABLE) });
        poll(&mut Context::from_waker(&lent))
    }
}

static TABLE: RawWakerVTable = RawWakerVTable::new(clone, wake, |at| call(lent(&at)), let_go);

fn clone(at: *const ()) -> RawWaker {
    let &piper_waker { datum, calls } = lent(&at);
    let kept = Box::new(piper_waker { datum: (calls.clone)(datum), calls });
    RawWaker::new(Box::into_raw(kept).cast_const().cast(), &TABLE)
}

fn wake(at: *const ()) {
    call(lent(&at));
    let_go(at);
}

fn call(waker: &piper_waker) {
    (waker.calls.wake)(waker.datum);
}

fn let_go(at: *const ()) {
    // SAFETY: the table is private to this file, and of a lent waker neither `wake` nor `let_go` is called: so it is a kept one, which
    // is called for the last time.
    let kept = unsafe { Box::from_raw(at.cast_mut().cast::<piper_waker>()) };
    (kept.calls.drop)(kept.datum);
}

/// The waker of a table's call.
fn lent(at: &*const ()) -> &piper_waker {
    // SAFETY: the table is private to this file, and each waker of it lives while it is called.
    unsafe { &*at.cast::<piper_waker>() }
}

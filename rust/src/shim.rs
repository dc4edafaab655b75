//! What the proved source uses of Rattle's libraries, over those of Rust: all of it that is not in `proved`.
//!
//! Rattle's meaning of that source and Rust's differ in these points:
//!
//! - **Overflow, indices.** No sum overflows and no index is too large, which is proved. Rust checks indices all the same,
//!   and sums in debug builds.
//! - **Conditions.** A safe function with a `requires` may be unsound to call without it. All of `proved` is private to the
//!   crate; of what `lib`, `reader` and `writer` call, `pipe_with_seed`, `consume` and `produced` have one, and an
//!   assertion for it; that of `cancel` is of the log alone, which the package doesn't keep. What the proof takes of `Read`
//!   and `Write`, `Checked` in `lib` asserts.
//! - **`usize`** has 64 bits in the proofs. With 32 the same source is built and tested: `IS_PROVED` is `false` there.
//! - **Drops** of Rattle are by value. Those of the source only let evidence go, which takes no bytes, or do what Rust does
//!   for fields; that of a handle the package's own handle makes, by `finish`. `tools/erase` refuses any other. Fields are
//!   moved out of a value only where its type has no `Drop`.
//! - **Cells.** Rattle lets a type say what lies behind a `&` to it. Rust has `UnsafeCell` for that: the one such type,
//!   `TokenCell`, holds one.
//! - **Aliasing.** The ring is reached by raw pointers of one allocation. A slice is made only of places that its side has.
//! - **`Send` and `Sync`** say the same in both; Rattle proves each `unsafe impl`, and Rust takes it.
//! - **Memory.** Rattle's heap may refuse; here the program ends then, as at any allocation of Rust.
//! - **Unwinding.** Rattle has none. Foreign code is called between two whole calls of a side (`lib` says where).

pub(crate) mod std {
    pub(crate) use core::{convert, slice};
    pub(crate) mod marker {
        pub(crate) use core::marker::{PhantomData, Send, Sync};
        /// It says of an access that it is one of the proved words.
        pub(crate) struct Brand;
    }

    pub(crate) mod sync {
        pub(crate) mod atomic {
            pub(crate) use core::sync::atomic::Ordering;
            /// Accesses of the words that both sides share.
            pub(crate) mod raw {
                #[cfg(target_has_atomic = "64")]
                use core::sync::atomic::AtomicU64 as Atomic;
                #[cfg(not(target_has_atomic = "64"))]
                use core::sync::atomic::AtomicUsize as Atomic;
                use core::sync::atomic::Ordering;

                /// Where in a word the number lies, counted in atomics: a processor that has none of 64 bits keeps a
                /// number of 32 in it, and its other half stays 0.
                const LOW: usize = if cfg!(target_endian = "big") { 8 / size_of::<Atomic>() - 1 } else { 0 };

                /// Safety: `at` is a word of 8 bytes that lives for `'a`, is aligned to 8, and is accessed only by these functions
                /// while two threads have it.
                #[inline(always)]
                unsafe fn word<'a>(at: *mut u64) -> &'a Atomic {
                    #[cfg(piper_schedules)]
                    crate::before_access();
                    // SAFETY: the caller says so; an atomic has no stricter alignment, and lies in the word.
                    unsafe { Atomic::from_ptr(at.cast::<Atomic>().add(LOW).cast()) }
                }

                /// Safety: as of `word`.
                #[inline(always)]
                pub(crate) unsafe fn load<B>(at: *mut u64, order: Ordering) -> u64 {
                    // SAFETY: the caller says so.
                    unsafe { word(at) }.load(order) as u64
                }

                /// Safety: as of `word`.
                #[inline(always)]
                pub(crate) unsafe fn store<B>(at: *mut u64, value: u64, order: Ordering) {
                    // SAFETY: the caller says so.
                    unsafe { word(at) }.store(value as _, order)
                }

                /// Safety: as of `word`.
                #[inline(always)]
                pub(crate) unsafe fn swap<B>(at: *mut u64, value: u64, order: Ordering) -> u64 {
                    // SAFETY: the caller says so.
                    unsafe { word(at) }.swap(value as _, order) as u64
                }
            }
        }
    }

    pub(crate) mod alloc {
        use alloc::alloc::{alloc, dealloc, handle_alloc_error};
        use core::alloc::Layout;

        /// No block can be as large as that.
        pub(crate) struct AllocError;
        /// The program's heap.
        #[derive(Clone, Copy)]
        pub(crate) struct Global;

        pub(crate) trait Allocator {
            fn allocate(&self, size: usize, align: usize) -> Result<*mut u8, AllocError>;
            /// Safety: `allocate` gave this block, of this size and alignment, and it wasn't given back since.
            unsafe fn deallocate(&self, at: *mut u8, size: usize, align: usize);
        }

        impl Allocator for Global {
            fn allocate(&self, size: usize, align: usize) -> Result<*mut u8, AllocError> {
                assert!(size > 0, "a block has at least a byte");
                let layout = Layout::from_size_align(size, align).map_err(|_| AllocError)?;
                // SAFETY: the size is not 0.
                let at = unsafe { alloc(layout) };
                if at.is_null() {
                    handle_alloc_error(layout);
                }
                Ok(at)
            }
            unsafe fn deallocate(&self, at: *mut u8, size: usize, align: usize) {
                // SAFETY: the caller says that this was the layout of the block, so it is one.
                unsafe { dealloc(at, Layout::from_size_align_unchecked(size, align)) }
            }
        }
    }

    #[cfg(feature = "std")]
    pub(crate) use ::std::io;
    /// What the source names of `std::io`, and nobody calls without `std`.
    #[cfg(not(feature = "std"))]
    pub(crate) mod io {
        #[derive(Debug)]
        pub enum Error {
            OutOfMemory,
        }
        pub(crate) use Error as ErrorKind;
        pub(crate) type Result<T> = core::result::Result<T, Error>;
        pub(crate) trait Read {
            fn read(&mut self, dest: &mut [u8]) -> Result<usize>;
        }
        pub(crate) trait Write {
            fn write(&mut self, source: &[u8]) -> Result<usize>;
            fn flush(&mut self) -> Result<()>;
        }
    }
}

pub(crate) mod futures {
    pub(crate) mod task {
        pub(crate) use core::task::{Poll, Waker};

        /// What a task waits at: in Rust its waker alone.
        pub(crate) struct Source;
        impl Source {
            pub(crate) fn new() -> Source {
                Source
            }
        }

        /// A poll of a task.
        pub(crate) struct Context<'a> {
            waker: &'a Waker,
            /// Another task's waker, which lay in the slot. It is dropped with this, behind all that the call does, since
            /// its drop may panic.
            before: Option<Waker>,
        }

        impl<'a> Context<'a> {
            #[inline]
            pub(crate) fn new(cx: &core::task::Context<'a>) -> Context<'a> {
                Context { waker: cx.waker(), before: None }
            }

            /// Asks for another poll.
            pub(crate) fn yield_now<T>(&mut self) -> Poll<T> {
                self.waker.wake_by_ref();
                Poll::Pending
            }

            /// Leaves a waker of the task in `slot`.
            pub(crate) fn register<T>(&mut self, _: &Source, slot: &mut Option<Waker>) -> Poll<T> {
                if !slot.as_ref().is_some_and(|held| held.will_wake(self.waker)) {
                    self.before = slot.replace(self.waker.clone());
                }
                Poll::Pending
            }
        }
    }
}

pub(crate) mod rand_core {
    pub(crate) trait SeedableRng {
        fn seed_from_u64(seed: u64) -> Self;
    }
    pub(crate) mod utils {
        pub(crate) trait NextWord {
            fn next_word(&mut self) -> u32;
        }
    }
}
pub(crate) mod rand_pcg {
    /// A generator of the PCG family (XSH RR 64/32).
    pub(crate) struct Pcg32(u64);
    impl super::rand_core::SeedableRng for Pcg32 {
        fn seed_from_u64(seed: u64) -> Pcg32 {
            Pcg32(seed.wrapping_mul(6_364_136_223_846_793_005))
        }
    }
    impl super::rand_core::utils::NextWord for Pcg32 {
        fn next_word(&mut self) -> u32 {
            let state = self.0;
            self.0 = state.wrapping_mul(6_364_136_223_846_793_005).wrapping_add(1_442_695_040_888_963_407);
            ((((state >> 18) ^ state) >> 27) as u32).rotate_right((state >> 59) as u32)
        }
    }
}

//! Cells, futures and clocks for one thread.

use core::cell::Cell;
use core::future::Future;

use super::error::Error;

pub mod cell {
    pub use core::cell::RefCell;
}

pub mod futures {
    use core::future::{poll_fn, Future};
    use core::pin::pin;
    use core::task::Poll;

    pub enum Either4<A, B, C, D> {
        First(A),
        Second(B),
        Third(C),
        Fourth(D),
    }

    /// The first of the four that is ready, asked in this order.
    pub async fn select4<A, B, C, D>(a: A, b: B, c: C, d: D) -> Either4<A::Output, B::Output, C::Output, D::Output>
    where
        A: Future,
        B: Future,
        C: Future,
        D: Future,
    {
        let mut a = pin!(a);
        let mut b = pin!(b);
        let mut c = pin!(c);
        let mut d = pin!(d);
        poll_fn(|ctx| {
            if let Poll::Ready(value) = a.as_mut().poll(ctx) {
                return Poll::Ready(Either4::First(value));
            }
            if let Poll::Ready(value) = b.as_mut().poll(ctx) {
                return Poll::Ready(Either4::Second(value));
            }
            if let Poll::Ready(value) = c.as_mut().poll(ctx) {
                return Poll::Ready(Either4::Third(value));
            }
            d.as_mut().poll(ctx).map(Either4::Fourth)
        })
        .await
    }
}

pub mod storage {
    use core::mem::MaybeUninit;
    use core::ops::Deref;

    /// A list of at most `N` values, without an allocation.
    pub struct Vec<T: Copy, const N: usize> {
        items: [MaybeUninit<T>; N],
        count: usize,
    }

    impl<T: Copy, const N: usize> Vec<T, N> {
        pub const fn new() -> Self {
            Self { items: [const { MaybeUninit::uninit() }; N], count: 0 }
        }

        pub fn push(&mut self, value: T) -> Result<(), T> {
            let Some(item) = self.items.get_mut(self.count) else {
                return Err(value);
            };
            item.write(value);
            self.count += 1;
            Ok(())
        }
    }

    impl<T: Copy, const N: usize> Deref for Vec<T, N> {
        type Target = [T];

        fn deref(&self) -> &[T] {
            // SAFETY: `push` wrote the first `count` items, and `count` is at most `N`.
            unsafe { core::slice::from_raw_parts(self.items.as_ptr().cast(), self.count) }
        }
    }
}

pub mod sync {
    use core::cell::Cell;
    use core::future::poll_fn;
    use core::task::Poll;

    pub trait MaybeSend {}

    impl<T: ?Sized> MaybeSend for T {}

    pub trait MaybeSendSync {}

    impl<T: ?Sized> MaybeSendSync for T {}

    pub mod blocking {
        pub struct Mutex<T>(T);

        impl<T> Mutex<T> {
            pub const fn new(value: T) -> Self {
                Self(value)
            }

            pub fn lock<R>(&self, f: impl FnOnce(&T) -> R) -> R {
                f(&self.0)
            }
        }
    }

    /// A value that a future waits on. It is only polled when src/inside.rs says so, so nobody needs waking.
    pub struct Signal<T: Copy>(Cell<T>);

    impl<T: Copy> Signal<T> {
        pub const fn new(value: T) -> Self {
            Self(Cell::new(value))
        }

        pub fn modify<R>(&self, f: impl FnOnce(&mut T) -> (bool, R)) -> R {
            let mut value = self.0.get();
            let (_wake, result) = f(&mut value);
            self.0.set(value);
            result
        }

        pub async fn wait<R>(&self, mut f: impl FnMut(&mut T) -> Option<R>) -> R {
            poll_fn(|_ctx| match self.modify(|value| (false, f(value))) {
                Some(result) => Poll::Ready(result),
                None => Poll::Pending,
            })
            .await
        }
    }
}

pub mod timers {
    use core::cell::Cell;
    use core::future::{pending, Future};
    use core::ops::Add;

    #[derive(Clone, Copy, Eq, Ord, PartialEq, PartialOrd)]
    pub struct Duration(u64);

    impl Duration {
        pub const fn from_secs(secs: u64) -> Self {
            Self(secs * 1000)
        }
    }

    /// Whole milliseconds.
    #[derive(Clone, Copy, Eq, Ord, PartialEq, PartialOrd)]
    pub struct Instant(pub u64);

    thread_local! {
        static CLOCK: Cell<u64> = const { Cell::new(0) };
    }

    impl Instant {
        pub fn set_now(millis: u64) {
            CLOCK.set(millis);
        }

        pub fn now() -> Self {
            Self(CLOCK.get())
        }

        pub fn saturating_duration_since(&self, earlier: Self) -> Duration {
            Duration(self.0.saturating_sub(earlier.0))
        }
    }

    impl Add<Duration> for Instant {
        type Output = Self;

        fn add(self, duration: Duration) -> Self {
            Self(self.0.checked_add(duration.0).expect("overflow when adding duration to instant"))
        }
    }

    /// Never rings: a timer's work is the console's `timer`, a call of its own.
    pub struct Timer;

    impl Timer {
        pub fn at(_deadline: Instant) -> impl Future<Output = ()> {
            pending()
        }

        pub fn after(_duration: Duration) -> impl Future<Output = ()> {
            pending()
        }
    }
}

/// The dirty mark; nothing is ever saved.
pub struct DeferredPersist(Cell<bool>);

impl DeferredPersist {
    pub const fn new() -> Self {
        Self(Cell::new(false))
    }

    pub fn mark_dirty(&self) {
        self.0.set(true);
    }

    pub fn clear(&self) {
        self.0.set(false);
    }

    pub fn is_dirty(&self) -> bool {
        self.0.get()
    }

    pub fn run<F: FnMut() -> Result<(), Error>>(&self, _delay_ms: u32, _save: F) -> impl Future<Output = ()> {
        core::future::pending()
    }
}

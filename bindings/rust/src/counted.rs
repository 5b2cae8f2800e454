//! Values that clones share, as with `Arc`. If the allocation of an `Arc` fails, the process aborts; here, it is an error.
//!
//! The unsafe code relies on three facts. A block lives as long as its count is that of one owner or more. Each [`Counted`] is one of the
//! owners. After a block is made, only its count changes.
#![allow(unsafe_code)]
#![warn(unsafe_op_in_unsafe_fn)]

use std::alloc::{handle_alloc_error, Layout};
use std::collections::TryReserveError;
use std::ops::Deref;
use std::process;
use std::ptr::NonNull;
use std::sync::atomic::{AtomicUsize, Ordering};

struct Block<T> {
    owners: AtomicUsize,
    value: T,
}

/// One of the owners of a value. The last one drops it.
pub(crate) struct Counted<T> {
    // A boxed slice with one block.
    at: NonNull<[Block<T>]>,
}

// SAFETY: owners on several threads share the value, and any of them may drop it, so the value must be `Send` and `Sync`.
unsafe impl<T: Send + Sync> Send for Counted<T> {}
unsafe impl<T: Send + Sync> Sync for Counted<T> {}

impl<T> Counted<T> {
    pub(crate) fn try_new(value: T) -> Result<Counted<T>, TryReserveError> {
        let mut block = Vec::new();
        block.try_reserve_exact(1)?;
        block.push(Block {
            owners: AtomicUsize::new(1),
            value,
        });
        Ok(Counted {
            at: NonNull::from(Box::leak(block.into_boxed_slice())),
        })
    }

    pub(crate) fn new(value: T) -> Counted<T> {
        Counted::try_new(value).unwrap_or_else(|_| handle_alloc_error(Layout::new::<Block<T>>()))
    }

    fn block(&self) -> &Block<T> {
        let blocks = unsafe { self.at.as_ref() };
        &blocks[0]
    }
}

impl<T> Deref for Counted<T> {
    type Target = T;

    fn deref(&self) -> &T {
        &self.block().value
    }
}

impl<T> Clone for Counted<T> {
    fn clone(&self) -> Counted<T> {
        // Forgotten owners must not make the count wrap.
        if self.block().owners.fetch_add(1, Ordering::Relaxed) > usize::MAX / 2 {
            process::abort();
        }
        Counted { at: self.at }
    }
}

impl<T> Drop for Counted<T> {
    fn drop(&mut self) {
        // The ordering ensures that all uses of the value by other owners happen before the last owner drops it.
        if self.block().owners.fetch_sub(1, Ordering::AcqRel) == 1 {
            drop(unsafe { Box::from_raw(self.at.as_ptr()) });
        }
    }
}

#[cfg(test)]
mod tests {
    use super::*;
    use std::sync::Arc;
    use std::thread;

    struct Dropped(Arc<AtomicUsize>);

    impl Drop for Dropped {
        fn drop(&mut self) {
            self.0.fetch_add(1, Ordering::Relaxed);
        }
    }

    #[test]
    fn the_last_owner_drops_the_value() {
        let drops = Arc::new(AtomicUsize::new(0));
        let first = Counted::new(Dropped(Arc::clone(&drops)));
        let second = first.clone();
        assert!(std::ptr::eq(&*first, &*second));
        drop(first);
        assert_eq!(drops.load(Ordering::Relaxed), 0);
        assert!(Arc::ptr_eq(&second.0, &drops));
        drop(second);
        assert_eq!(drops.load(Ordering::Relaxed), 1);
    }

    #[test]
    fn threads_share_a_value_that_is_dropped_once() {
        for _ in 0..100 {
            let drops = Arc::new(AtomicUsize::new(0));
            let value = Counted::new(Dropped(Arc::clone(&drops)));
            let threads: Vec<_> = (0..4)
                .map(|_| {
                    let own = value.clone();
                    thread::spawn(move || {
                        for _ in 0..100 {
                            assert_eq!(own.clone().0.load(Ordering::Relaxed), 0);
                        }
                    })
                })
                .collect();
            drop(value);
            for thread in threads {
                thread.join().expect("a thread");
            }
            assert_eq!(drops.load(Ordering::Relaxed), 1);
        }
    }
}

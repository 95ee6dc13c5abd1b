//! A bounded queue that threads share, with no lock: a ring of slots, each of which has a stamp that says whose turn it is.
use std::cell::UnsafeCell;
use std::hint::spin_loop;
use std::mem::MaybeUninit;
use std::sync::atomic::AtomicUsize;
use std::sync::atomic::Ordering::{Acquire, Relaxed, Release};

/// So that the places of pushes and pops have cache lines of their own.
#[repr(align(128))]
struct Place(AtomicUsize);

struct Slot<T> {
    stamp: AtomicUsize,
    item: UnsafeCell<MaybeUninit<T>>,
}

/// What is left in it when it ends isn't dropped.
pub struct ArrayQueue<T> {
    slots: Box<[Slot<T>]>,
    head: Place,
    tail: Place,
}

// SAFETY: an item is written by the one push that took its slot's turn, and read by the one pop that took the next.
unsafe impl<T: Send> Sync for ArrayQueue<T> {}

impl<T> ArrayQueue<T> {
    /// A queue with room for so many items, which is a power of two.
    pub fn new(room: usize) -> ArrayQueue<T> {
        assert!(room.is_power_of_two());
        let slot = |at| Slot { stamp: AtomicUsize::new(at), item: UnsafeCell::new(MaybeUninit::uninit()) };
        ArrayQueue { slots: (0..room).map(slot).collect(), head: Place(AtomicUsize::new(0)), tail: Place(AtomicUsize::new(0)) }
    }

    fn slot(&self, at: usize) -> &Slot<T> {
        &self.slots[at & (self.slots.len() - 1)]
    }

    /// Puts an item at the end, or gives it back if the queue is full.
    pub fn push(&self, item: T) -> Result<(), T> {
        let mut at = self.tail.0.load(Relaxed);
        loop {
            let slot = self.slot(at);
            let stamp = slot.stamp.load(Acquire);
            if stamp == at {
                match self.tail.0.compare_exchange_weak(at, at + 1, Relaxed, Relaxed) {
                    Ok(_) => {
                        // SAFETY: the turn at this slot is this call's alone.
                        unsafe { (*slot.item.get()).write(item) };
                        slot.stamp.store(at + 1, Release);
                        return Ok(());
                    }
                    Err(now) => at = now,
                }
            } else if stamp < at {
                return Err(item);
            } else {
                at = self.tail.0.load(Relaxed);
            }
            spin_loop();
        }
    }

    /// Takes the first item, if there is one.
    pub fn pop(&self) -> Option<T> {
        let mut at = self.head.0.load(Relaxed);
        loop {
            let slot = self.slot(at);
            let stamp = slot.stamp.load(Acquire);
            if stamp == at + 1 {
                match self.head.0.compare_exchange_weak(at, at + 1, Relaxed, Relaxed) {
                    Ok(_) => {
                        // SAFETY: a push wrote the item, and the turn at this slot is this call's alone.
                        let item = unsafe { (*slot.item.get()).assume_init_read() };
                        slot.stamp.store(at + self.slots.len(), Release);
                        return Some(item);
                    }
                    Err(now) => at = now,
                }
            } else if stamp <= at {
                return None;
            } else {
                at = self.head.0.load(Relaxed);
            }
            spin_loop();
        }
    }
}

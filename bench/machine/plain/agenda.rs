//! Times of numbered places, in order: what is due costs what is due.

use std::cmp::Reverse;
use std::collections::BinaryHeap;

const NONE: u64 = u64::MAX;

/// At most one time for each place. An entry of the heap counts where the place still has its time.
pub struct Agenda {
    times: Vec<u64>,
    heap: BinaryHeap<Reverse<(u64, u32)>>,
    live: usize,
}

impl Agenda {
    pub fn new(places: usize) -> Agenda {
        Agenda { times: vec![NONE; places], heap: BinaryHeap::new(), live: 0 }
    }

    pub fn set(&mut self, place: u32, time: u64) {
        self.forget(place);
        self.times[place as usize] = time;
        self.live += 1;
        self.heap.push(Reverse((time, place)));
        if self.heap.len() > 2 * self.live + 64 {
            let times = &self.times;
            let mut kept: Vec<_> = std::mem::take(&mut self.heap).into_vec();
            kept.retain(|Reverse((time, place))| times[*place as usize] == *time);
            kept.sort_unstable();
            kept.dedup();
            self.heap = kept.into();
        }
    }

    pub fn forget(&mut self, place: u32) {
        let time = &mut self.times[place as usize];
        if *time != NONE {
            *time = NONE;
            self.live -= 1;
        }
    }

    /// Takes one place away whose time is at most this, an earliest one.
    #[inline]
    pub fn pop_due(&mut self, now: u64) -> Option<u32> {
        while let Some(&Reverse((time, place))) = self.heap.peek()
            && time <= now
        {
            self.heap.pop();
            if self.times[place as usize] == time {
                self.forget(place);
                return Some(place);
            }
        }
        None
    }
}

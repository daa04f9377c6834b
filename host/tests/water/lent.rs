//! A list as a host lends it, fenced: one end of it touches a page that no program may read or write, and up to 1,024 bytes at its
//! other end bear a pattern that must still stand after the call.

use crate::rng::Rng;
use std::cell::RefCell;
use std::fmt::Debug;
use std::marker::PhantomData;
use std::os::raw::{c_int, c_void};

extern "C" {
    fn mmap(address: *mut c_void, length: usize, protection: c_int, flags: c_int, file: c_int, offset: i64) -> *mut c_void;
    fn mprotect(address: *mut c_void, length: usize, protection: c_int) -> c_int;
}

// Linux, on every machine that the library is compiled for
const NO_ACCESS: c_int = 0;
const READ_WRITE: c_int = 1 | 2;
const PRIVATE_ANONYMOUS: c_int = 0x02 | 0x20;
// a page of any machine, or a whole number of them
const FENCE: usize = 65_536;
const PATTERN: u8 = 0xa5;

/// So many bytes of memory between two fences.
#[derive(Clone, Copy)]
struct Map {
    low_fence: *mut u8,
    size: usize,
}

thread_local! {
    // maps that no list uses any more, for the next list of their size
    static FREE: RefCell<Vec<Map>> = const { RefCell::new(Vec::new()) };
}

impl Map {
    fn with_room_for(bytes: usize) -> Map {
        // a whole number of pages, and always some room for the pattern
        let size = (bytes / FENCE + 1) * FENCE;
        let kept = FREE.with(|free| {
            let mut free = free.borrow_mut();
            let place = free.iter().position(|map| map.size == size)?;
            Some(free.swap_remove(place))
        });
        kept.unwrap_or_else(|| Map::new(size))
    }

    fn new(size: usize) -> Map {
        // Safety, here and below: no pointer leaves its map, which has a fence, `size` bytes and a fence, stays mapped for good and
        // is one list's alone.
        unsafe {
            let low_fence = mmap(std::ptr::null_mut(), size + 2 * FENCE, NO_ACCESS, PRIVATE_ANONYMOUS, -1, 0) as *mut u8;
            assert!(low_fence as isize != -1, "no memory for a lent list");
            assert_eq!(mprotect(low_fence.add(FENCE) as *mut c_void, size, READ_WRITE), 0);
            Map { low_fence, size }
        }
    }

    fn at(&self, offset: usize) -> *mut u8 {
        unsafe { self.low_fence.add(FENCE + offset) }
    }
}

pub struct Lent<T> {
    map: Map,
    start: usize,
    length: usize,
    what: &'static str,
    kind: PhantomData<T>,
}

impl<T: Copy + PartialEq + Debug> Lent<T> {
    /// A list with the given content, at one end or the other of its pages.
    pub fn new(rng: &mut Rng, what: &'static str, content: &[T]) -> Lent<T> {
        let bytes = std::mem::size_of_val(content);
        let map = Map::with_room_for(bytes);
        let start = if rng.percent(50) { 0 } else { map.size - bytes };
        let lent = Lent { map, start, length: content.len(), what, kind: PhantomData };
        unsafe {
            let (low, high) = lent.around();
            std::ptr::write_bytes(low.0, PATTERN, low.1);
            std::ptr::write_bytes(high.0, PATTERN, high.1);
            std::ptr::copy_nonoverlapping(content.as_ptr(), lent.pointer(), content.len());
        }
        lent
    }

    /// The bytes before and behind the list that bear the pattern: none on the side of the fence.
    fn around(&self) -> ((*mut u8, usize), (*mut u8, usize)) {
        let end = self.start + self.length * std::mem::size_of::<T>();
        let (before, behind) = (self.start.min(1_024), (self.map.size - end).min(1_024));
        ((self.map.at(self.start - before), before), (self.map.at(end), behind))
    }

    pub fn pointer(&self) -> *mut T {
        self.map.at(self.start) as *mut T
    }

    pub fn length(&self) -> usize {
        self.length
    }

    fn content(&self) -> &[T] {
        unsafe { std::slice::from_raw_parts(self.pointer(), self.length) }
    }

    /// The list holds exactly this, and nothing beside it was touched.
    pub fn assert_holds(&self, expected: &[T]) {
        let content = self.content();
        if content != expected {
            let place = content.iter().zip(expected).position(|(a, b)| a != b);
            match place {
                None => panic!("{}: {} elements, and not {}", self.what, content.len(), expected.len()),
                Some(k) => panic!("{}[{k}] is {:?}, and not {:?}", self.what, content[k], expected[k]),
            }
        }
        let (low, high) = self.around();
        for (pointer, length) in [low, high] {
            let pattern = unsafe { std::slice::from_raw_parts(pointer, length) };
            assert!(pattern.iter().all(|&byte| byte == PATTERN), "{}: memory beside the list was written", self.what);
        }
    }
}

impl<T> Drop for Lent<T> {
    fn drop(&mut self) {
        FREE.with(|free| free.borrow_mut().push(self.map));
    }
}

/// A list that a call is to fill: random words, and now and then the wrong length.
pub fn room(rng: &mut Rng, length: usize) -> Vec<i32> {
    let mut list: Vec<i32> = (0..length).map(|_| rng.next() as i32).collect();
    if rng.percent(4) {
        hurt_length(rng, &mut list);
    }
    list
}

/// A list with the wrong length: one short, one long, empty, half or double.
pub fn hurt_length<T: Copy + Default>(rng: &mut Rng, list: &mut Vec<T>) {
    let length = match rng.below(5) {
        0 => list.len().saturating_sub(1),
        1 => list.len() + 1,
        2 => 0,
        3 => list.len() / 2,
        _ => list.len() * 2,
    };
    list.resize(length, T::default());
}

// Memory as a call is lent it. The elements stand at the front or at the end of whole pages, and pages that can be neither read nor written stand on both sides:
// to read or write past that end stops the program at once. What the elements leave of their pages is guard bytes, looked at after every call.
use std::marker::PhantomData;
use std::ops::{Deref, DerefMut};
use std::sync::atomic::{AtomicU64, Ordering};

extern "C" {
    fn mmap(address: *mut u8, length: usize, protection: i32, flags: i32, file: i32, offset: i64) -> *mut u8;
    fn mprotect(address: *mut u8, length: usize, protection: i32) -> i32;
    fn munmap(address: *mut u8, length: usize) -> i32;
}

const PAGE: usize = 4096;
const CLOSED: i32 = 0;
const OPEN: i32 = 3;
const PRIVATE_ANONYMOUS: i32 = 0x22;
const GUARD: u8 = 0xA5;

// Front and end take turns.
static TURN: AtomicU64 = AtomicU64::new(0);

pub struct Lent<T> {
    open: *mut u8,
    pages: usize,
    // In bytes, from `open`.
    first: usize,
    len: usize,
    of: PhantomData<T>,
}

impl<T: Copy> Lent<T> {
    pub fn new(elements: &[T]) -> Lent<T> {
        let bytes = size_of_val(elements);
        let pages = bytes.div_ceil(PAGE).max(1);
        let first = if TURN.fetch_add(1, Ordering::Relaxed) % 2 == 0 { 0 } else { PAGE * pages - bytes };
        let open = unsafe {
            let all = mmap(std::ptr::null_mut(), PAGE * (pages + 2), CLOSED, PRIVATE_ANONYMOUS, -1, 0);
            assert!(all as isize != -1, "no memory");
            assert_eq!(mprotect(all.add(PAGE), PAGE * pages, OPEN), 0);
            all.add(PAGE)
        };
        let mut lent = Lent { open, pages, first, len: elements.len(), of: PhantomData };
        let (before, after) = lent.around();
        lent.bytes()[..before].fill(GUARD);
        lent.bytes()[after..].fill(GUARD);
        lent.copy_from_slice(elements);
        lent
    }

    pub fn filled(element: T, len: usize) -> Lent<T> {
        Lent::new(&vec![element; len])
    }

    // Where the guard bytes before the elements end, and where those after them begin.
    fn around(&self) -> (usize, usize) {
        (self.first, self.first + self.len * size_of::<T>())
    }

    fn bytes(&mut self) -> &mut [u8] {
        unsafe { std::slice::from_raw_parts_mut(self.open, PAGE * self.pages) }
    }

    pub fn is_guarded(&self) -> bool {
        let bytes = unsafe { std::slice::from_raw_parts(self.open, PAGE * self.pages) };
        let (before, after) = self.around();
        bytes[..before].iter().chain(&bytes[after..]).all(|&byte| byte == GUARD)
    }
}

impl<T: Copy> Clone for Lent<T> {
    fn clone(&self) -> Lent<T> {
        Lent::new(self)
    }
}

impl<T> Deref for Lent<T> {
    type Target = [T];

    fn deref(&self) -> &[T] {
        unsafe { std::slice::from_raw_parts(self.open.add(self.first) as *const T, self.len) }
    }
}

impl<T> DerefMut for Lent<T> {
    fn deref_mut(&mut self) -> &mut [T] {
        unsafe { std::slice::from_raw_parts_mut(self.open.add(self.first) as *mut T, self.len) }
    }
}

impl<T> Drop for Lent<T> {
    fn drop(&mut self) {
        unsafe { munmap(self.open.sub(PAGE), PAGE * (self.pages + 2)) };
    }
}

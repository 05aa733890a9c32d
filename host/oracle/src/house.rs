//! Where the slices lie that the port is lent: between guard words, alone on the heap, or against pages that may not be touched.

/// A word of a lent slice.
pub trait Word: Copy + PartialEq + From<u8> {}

impl<T: Copy + PartialEq + From<u8>> Word for T {}

/// A place for slices.
pub trait House {
    type Room<T: Word>: Room<T>;
    /// A copy of a slice, in a room of its own.
    fn lend<T: Word>(&mut self, words: &[T]) -> Self::Room<T>;
}

/// A slice in its place.
pub trait Room<T> {
    fn inner(&mut self) -> &mut [T];
    /// The words as they are now; what lies around them must be as it was.
    fn open(self) -> Vec<T>;
}

/// Words on each side of a slice that no call may touch.
const GUARD: usize = 4;

/// Guard words around every slice.
pub struct Guarded;

/// A slice between two guards.
pub struct Fenced<T> {
    words: Vec<T>,
}

impl House for Guarded {
    type Room<T: Word> = Fenced<T>;
    fn lend<T: Word>(&mut self, words: &[T]) -> Fenced<T> {
        let guard = [T::from(0xA5); GUARD];
        Fenced { words: [&guard, words, &guard].concat() }
    }
}

impl<T: Word> Room<T> for Fenced<T> {
    fn inner(&mut self) -> &mut [T] {
        let end = self.words.len() - GUARD;
        &mut self.words[GUARD..end]
    }
    fn open(self) -> Vec<T> {
        let (end, guard) = (self.words.len() - GUARD, T::from(0xA5));
        assert!(self.words[..GUARD].iter().chain(&self.words[end..]).all(|&w| w == guard), "a word beside a buffer was written");
        self.words[GUARD..end].to_vec()
    }
}

/// Every slice alone on the heap, for a checker of memory to watch.
pub struct Alone;

impl House for Alone {
    type Room<T: Word> = Box<[T]>;
    fn lend<T: Word>(&mut self, words: &[T]) -> Box<[T]> { words.into() }
}

impl<T: Word> Room<T> for Box<[T]> {
    fn inner(&mut self) -> &mut [T] { self }
    fn open(self) -> Vec<T> { self.into_vec() }
}

/// Every slice against a page that may not be touched: its end, or its start. A read or write there ends the program.
pub struct Pages {
    regions: Vec<*mut u8>,
    next: usize,
    /// Whether the starts are against the pages.
    pub starts: bool,
}

/// The bytes of a page and of a region between its two guard pages, and the regions, more than any call has slices.
const PAGE: usize = 4_096;
const REGION: usize = 16 << 20;
const REGIONS: usize = 12;

unsafe extern "C" {
    fn mmap(at: *mut u8, length: usize, may: i32, flags: i32, file: i32, offset: i64) -> *mut u8;
    fn mprotect(at: *mut u8, length: usize, may: i32) -> i32;
}

impl Pages {
    pub fn new() -> Pages {
        let region = |_| {
            // SAFETY: fresh private memory that nothing else has; the region between the two guard pages is made usable.
            unsafe {
                let base = mmap(std::ptr::null_mut(), REGION + 2 * PAGE, 0, 0x22, -1, 0);
                assert!(base as isize != -1 && mprotect(base.add(PAGE), REGION, 3) == 0, "no memory for the guard pages");
                base.add(PAGE)
            }
        };
        Pages { regions: (0..REGIONS).map(region).collect(), next: 0, starts: false }
    }
}

impl Default for Pages {
    fn default() -> Pages { Pages::new() }
}

/// A slice in a region.
pub struct Paged<T> {
    at: *mut T,
    length: usize,
}

impl House for Pages {
    type Room<T: Word> = Paged<T>;
    fn lend<T: Word>(&mut self, words: &[T]) -> Paged<T> {
        let bytes = size_of_val(words);
        assert!(bytes <= REGION, "a slice longer than a region");
        self.next = (self.next + 1) % REGIONS;
        // SAFETY: the region has the room, its ends are aligned for every word, and it is lent again only after eleven others.
        unsafe {
            let at = self.regions[self.next].add(if self.starts { 0 } else { REGION - bytes }).cast::<T>();
            std::ptr::copy_nonoverlapping(words.as_ptr(), at, words.len());
            Paged { at, length: words.len() }
        }
    }
}

impl<T: Word> Room<T> for Paged<T> {
    // SAFETY: the words were written when the room was lent.
    fn inner(&mut self) -> &mut [T] { unsafe { std::slice::from_raw_parts_mut(self.at, self.length) } }
    fn open(mut self) -> Vec<T> { self.inner().to_vec() }
}

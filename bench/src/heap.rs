//! How much memory the program has, as glibc's malloc tells it.

/// A `struct mallinfo2`.
#[repr(C)]
struct Mallinfo {
    arena: usize,
    ordblks: usize,
    smblks: usize,
    hblks: usize,
    hblkhd: usize,
    usmblks: usize,
    fsmblks: usize,
    uordblks: usize,
    fordblks: usize,
    keepcost: usize,
}

unsafe extern "C" {
    fn mallinfo2() -> Mallinfo;
}

/// The bytes that are allocated and not freed, with what malloc itself wants for each block.
pub fn in_use() -> usize {
    // SAFETY: it takes nothing, and may be called at any time.
    let told = unsafe { mallinfo2() };
    told.uordblks + told.hblkhd
}

/// What a call leaves allocated, for each of so many things that it makes, and what it answers.
pub fn left<T>(count: usize, call: impl FnOnce() -> T) -> (f64, T) {
    let before = in_use();
    let answer = call();
    (since(before, count), answer)
}

/// What has come since there were so many bytes in use, for each of so many things.
pub fn since(before: usize, count: usize) -> f64 {
    (in_use() as f64 - before as f64) / count as f64
}

//! The library's memory from Rust's global allocator, in place of `c/heap.c`.
//!
//! The library doesn't tell a block's length when it frees one, so 16 octets before each block have it.
use alloc::alloc::{Layout, alloc, dealloc, realloc};
use core::ptr::{NonNull, null_mut};

/// The octets before a block, and what each block is aligned to.
const HEAD: usize = 16;

/// What the library expects of a request: whether there is a block, and where. The address isn't null in either case.
#[repr(C)]
pub struct Block {
    is_there: bool,
    at: *mut u8,
}

fn block(at: *mut u8) -> Block {
    Block { is_there: !at.is_null(), at: if at.is_null() { NonNull::<u128>::dangling().as_ptr().cast() } else { at } }
}

fn layout(size: usize) -> Option<Layout> {
    Layout::from_size_align(size.checked_add(HEAD)?, HEAD).ok()
}

/// Writes the length before a block, and returns the block.
///
/// # Safety
/// `base` is null, or a block of the allocator's by this layout.
unsafe fn with_head(base: *mut u8, layout: Layout) -> *mut u8 {
    if base.is_null() {
        return null_mut();
    }
    // SAFETY: the block has at least `HEAD` octets and is aligned to as many.
    unsafe {
        base.cast::<usize>().write(layout.size());
        base.add(HEAD)
    }
}

/// The allocator's block of one of the library's, and its layout.
///
/// # Safety
/// `at` is a block of `rattle_alloc` or `rattle_realloc` that wasn't freed.
unsafe fn base_of(at: *mut u8) -> (*mut u8, Layout) {
    // SAFETY: such a block has its length before it, which `layout` accepted.
    unsafe {
        let base = at.sub(HEAD);
        (base, Layout::from_size_align_unchecked(base.cast::<usize>().read(), HEAD))
    }
}

// SAFETY: the library alone calls it, and no other crate defines this name: `libiface_c.a` leaves it undefined.
#[unsafe(no_mangle)]
extern "C" fn rattle_alloc(size: usize, _align: usize) -> Block {
    let Some(layout) = layout(size) else { return block(null_mut()) };
    // SAFETY: the layout has at least `HEAD` octets.
    block(unsafe { with_head(alloc(layout), layout) })
}

/// # Safety
/// As of `realloc`.
// SAFETY: as for `rattle_alloc`.
#[unsafe(no_mangle)]
unsafe extern "C" fn rattle_realloc(old: *mut u8, _old_size: usize, size: usize, _align: usize) -> Block {
    let Some(new) = layout(size) else { return block(null_mut()) };
    // SAFETY: the library returns only blocks of these functions, each once; the new size is one that `layout`
    // accepted.
    block(unsafe {
        let (base, layout) = base_of(old);
        with_head(realloc(base, layout, new.size()), new)
    })
}

/// # Safety
/// As of `free`.
// SAFETY: as for `rattle_alloc`.
#[unsafe(no_mangle)]
unsafe extern "C" fn rattle_dealloc(at: *mut u8) {
    // SAFETY: the library returns only blocks of the two functions above, each once.
    unsafe {
        let (base, layout) = base_of(at);
        dealloc(base, layout);
    }
}

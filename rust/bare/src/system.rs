//! What a program brings along that has neither std nor a C library.
use core::alloc::{GlobalAlloc, Layout};
use core::arch::{asm, global_asm};
use core::cell::UnsafeCell;
use core::ptr::null_mut;
use core::sync::atomic::{AtomicUsize, Ordering::SeqCst};

#[cfg(target_arch = "x86_64")]
global_asm!(".globl _start", "_start:", "and rsp, -16", "call start");

#[cfg(target_arch = "aarch64")]
global_asm!(".globl _start", "_start:", "bl start");

/// A system call of Linux.
///
/// # Safety
/// As of the call.
unsafe fn call(number: usize, a: usize, b: usize, c: usize) -> usize {
    let result;
    #[cfg(target_arch = "x86_64")]
    // SAFETY: the registers are those of Linux on this processor; what the call does is the caller's to keep.
    unsafe {
        asm!(
            "syscall",
            inlateout("rax") number => result,
            in("rdi") a, in("rsi") b, in("rdx") c,
            out("rcx") _, out("r11") _,
        )
    };
    #[cfg(target_arch = "aarch64")]
    // SAFETY: as above.
    unsafe {
        asm!("svc 0", in("x8") number, inlateout("x0") a => result, in("x1") b, in("x2") c)
    };
    result
}

#[cfg(target_arch = "x86_64")]
const WRITE_AND_EXIT: (usize, usize) = (1, 60);
#[cfg(target_arch = "aarch64")]
const WRITE_AND_EXIT: (usize, usize) = (64, 93);

/// Writes to standard output.
pub fn print(text: &[u8]) {
    // SAFETY: the octets are there, as many as is said.
    unsafe { call(WRITE_AND_EXIT.0, 1, text.as_ptr().addr(), text.len()) };
}

fn exit(status: usize) -> ! {
    loop {
        // SAFETY: the process ends.
        unsafe { call(WRITE_AND_EXIT.1, status, 0, 0) };
    }
}

// SAFETY: no other function of the program has this name.
#[unsafe(no_mangle)]
extern "C" fn start() -> ! {
    crate::run();
    exit(0)
}

#[panic_handler]
fn panic(_info: &core::panic::PanicInfo<'_>) -> ! {
    print(b"a panic\n");
    exit(101)
}

/// What the compiled `alloc` names for unwinding, which a program that aborts never does.
// SAFETY: no other function of the program has this name, and nothing calls it.
#[unsafe(no_mangle)]
extern "C" fn rust_eh_personality() {}

/// An allocator that never frees.
struct Bump {
    room: UnsafeCell<[u8; 1 << 20]>,
    used: AtomicUsize,
}

// SAFETY: each block is handed out once: `used` grows by one atomic operation.
unsafe impl Sync for Bump {}

// SAFETY: a block lies in `room`, is aligned, and overlaps no other one.
unsafe impl GlobalAlloc for Bump {
    unsafe fn alloc(&self, layout: Layout) -> *mut u8 {
        let Some(most) = layout.size().checked_add(layout.align()) else { return null_mut() };
        let base = self.room.get().cast::<u8>();
        let fits = |used: usize| used.checked_add(most).filter(|end| *end <= 1 << 20);
        let Ok(used) = self.used.fetch_update(SeqCst, SeqCst, fits) else { return null_mut() };
        // SAFETY: up to `most` octets from `used` on are in `room`.
        unsafe {
            let at = base.add(used);
            at.add(at.align_offset(layout.align()))
        }
    }

    unsafe fn dealloc(&self, _at: *mut u8, _layout: Layout) {}
}

#[global_allocator]
static HEAP: Bump = Bump { room: UnsafeCell::new([0; 1 << 20]), used: AtomicUsize::new(0) };

/// # Safety
/// As of the C function.
// SAFETY: no C library has it.
#[unsafe(no_mangle)]
unsafe extern "C" fn memcpy(to: *mut u8, from: *const u8, length: usize) -> *mut u8 {
    for place in 0..length {
        // SAFETY: both have so many octets. Volatile, so that the loop isn't made a call of this function.
        unsafe { to.add(place).write_volatile(from.add(place).read()) };
    }
    to
}

/// # Safety
/// As of the C function.
// SAFETY: no C library has it.
#[unsafe(no_mangle)]
unsafe extern "C" fn memmove(to: *mut u8, from: *const u8, length: usize) -> *mut u8 {
    if to.addr().wrapping_sub(from.addr()) >= length {
        // SAFETY: what is read first is written first, and isn't read again.
        return unsafe { memcpy(to, from, length) };
    }
    for place in (0..length).rev() {
        // SAFETY: both have so many octets, and the end of `from`, which is overwritten first, is read first.
        unsafe { to.add(place).write_volatile(from.add(place).read()) };
    }
    to
}

/// # Safety
/// As of the C function.
// SAFETY: no C library has it.
#[unsafe(no_mangle)]
unsafe extern "C" fn memset(to: *mut u8, octet: i32, length: usize) -> *mut u8 {
    for place in 0..length {
        // SAFETY: there are so many octets.
        unsafe { to.add(place).write_volatile(octet as u8) };
    }
    to
}

/// # Safety
/// As of the C function.
// SAFETY: no C library has it.
#[unsafe(no_mangle)]
unsafe extern "C" fn memcmp(a: *const u8, b: *const u8, length: usize) -> i32 {
    for place in 0..length {
        // SAFETY: both have so many octets.
        let (a, b) = unsafe { (a.add(place).read_volatile(), b.add(place).read_volatile()) };
        if a != b {
            return i32::from(a) - i32::from(b);
        }
    }
    0
}

/// # Safety
/// As of `memcmp`.
// SAFETY: no C library has it.
#[unsafe(no_mangle)]
unsafe extern "C" fn bcmp(a: *const u8, b: *const u8, length: usize) -> i32 {
    // SAFETY: as the caller says.
    unsafe { memcmp(a, b, length) }
}

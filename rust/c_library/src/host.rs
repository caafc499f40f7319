//! What the library takes of the program that it is linked into: memory, and the end where Rust would panic.

use core::alloc::{GlobalAlloc, Layout};
use core::ffi::c_void;
use core::panic::PanicInfo;
use core::ptr;

#[cfg_attr(unix, link(name = "c"))]
#[cfg_attr(target_env = "msvc", link(name = "msvcrt"))]
unsafe extern "C" {
    fn abort() -> !;
    fn malloc(size: usize) -> *mut c_void;
    #[link_name = "realloc"]
    fn grow(at: *mut c_void, size: usize) -> *mut c_void;
    fn free(at: *mut c_void);
}

// The three functions of docs/C.md, "Your own allocator". Where names can be weak, a program may define them.
#[cfg(weak_names)]
unsafe extern "C" {
    fn rattle_alloc(size: usize, align: usize) -> Tried;
    fn rattle_realloc(at: *mut c_void, kept: usize, size: usize, align: usize) -> Tried;
    fn rattle_dealloc(at: *mut c_void);
}

#[cfg(not(weak_names))]
use {own_alloc as rattle_alloc, own_dealloc as rattle_dealloc, own_realloc as rattle_realloc};

#[panic_handler]
fn panic(_info: &PanicInfo<'_>) -> ! {
    end()
}

extern "C" fn end() -> ! {
    // SAFETY: it takes nothing.
    unsafe { abort() }
}

/// What docs/C.md calls `tried`.
#[repr(C)]
struct Tried {
    ok: usize,
    at: *mut c_void,
}

impl Tried {
    fn of(at: *mut c_void) -> Tried {
        let ok = usize::from(!at.is_null());
        Tried { ok, at }
    }

    fn block(self) -> *mut u8 {
        if self.ok == 0 {
            ptr::null_mut()
        } else {
            self.at.cast()
        }
    }
}

// The allocator of the C library, which aligns to 8 or more. No type that the library stores needs more.
unsafe extern "C" fn own_alloc(size: usize, _align: usize) -> Tried {
    Tried::of(unsafe { malloc(size) })
}

unsafe extern "C" fn own_realloc(
    at: *mut c_void,
    _kept: usize,
    size: usize,
    _align: usize,
) -> Tried {
    Tried::of(unsafe { grow(at, size) })
}

unsafe extern "C" fn own_dealloc(at: *mut c_void) {
    unsafe { free(at) }
}

/// Gives a function of the library a name that is weak, so that a program may define it otherwise. `#[linkage]` isn't
/// stable.
macro_rules! weak {
    ($name:literal, $function:path) => {
        #[cfg(weak_names)]
        core::arch::global_asm!(concat!(".weak ", $name), concat!(".set ", $name, ", {}"), sym $function);
    };
}
weak!("rattle_alloc", own_alloc);
weak!("rattle_realloc", own_realloc);
weak!("rattle_dealloc", own_dealloc);
// What Rust's objects name that can unwind. It is never called.
weak!("rust_eh_personality", end);

struct Host;

#[global_allocator]
static HOST: Host = Host;

// SAFETY: the three functions do what docs/C.md asks of them. No type that the library stores has an alignment above 8, and
// Rust asks for no block of 0 bytes.
unsafe impl GlobalAlloc for Host {
    unsafe fn alloc(&self, layout: Layout) -> *mut u8 {
        unsafe { rattle_alloc(layout.size(), layout.align()) }.block()
    }

    unsafe fn dealloc(&self, at: *mut u8, _layout: Layout) {
        unsafe { rattle_dealloc(at.cast()) }
    }

    unsafe fn realloc(&self, at: *mut u8, layout: Layout, size: usize) -> *mut u8 {
        let kept = layout.size().min(size);
        unsafe { rattle_realloc(at.cast(), kept, size, layout.align()) }.block()
    }
}

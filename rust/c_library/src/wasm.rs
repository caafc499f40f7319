//! What the library takes of a WebAssembly module: memory for one thread, which grows and never shrinks, and a trap where
//! Rust would panic. A block has 2^k bytes, and each k a list of free blocks. Where no block is taken, all memory is one
//! free piece again.

use core::alloc::{GlobalAlloc, Layout};
use core::arch::wasm32;
use core::cell::UnsafeCell;
use core::panic::PanicInfo;
use core::ptr;

const PAGE: usize = 65_536;
/// The last page stays out of memory, so that the address behind each block is above it.
const MOST_PAGES: usize = usize::MAX / PAGE;
const LEAST_ORDER: u32 = 5;
const ORDERS: usize = usize::BITS as usize;

unsafe extern "C" {
    static __heap_base: u8;
}

#[panic_handler]
fn panic(_info: &PanicInfo<'_>) -> ! {
    wasm32::unreachable()
}

/// The head of a block. What the block holds begins behind it, aligned to 16.
#[repr(align(16))]
struct Block {
    order: u32,
    next_free: *mut Block,
}

impl Block {
    /// The order of the least blocks that hold so many bytes, where an address can have so many.
    fn order_for(size: usize) -> Option<u32> {
        let bytes = size.checked_add(size_of::<Block>())?;
        let order = bytes.checked_next_power_of_two()?.trailing_zeros();
        Some(order.max(LEAST_ORDER))
    }

    /// The block that holds what begins at `held`.
    fn of(held: *mut u8) -> *mut Block {
        held.cast::<Block>().wrapping_sub(1)
    }

    fn held_by(block: *mut Block) -> *mut u8 {
        block.wrapping_add(1).cast()
    }
}

/// Whether the memory reaches to `end`, once it has grown if it must. It grows by an eighth or more, if so much is
/// left, since each growth takes time.
fn reaches(end: usize) -> bool {
    let pages = wasm32::memory_size::<0>();
    let wanted = end.div_ceil(PAGE);
    if wanted > MOST_PAGES {
        return false;
    }
    let ample = (pages + pages / 8 + 1).min(MOST_PAGES);
    wanted <= pages || (wanted < ample && grows(ample - pages)) || grows(wanted - pages)
}

fn grows(pages: usize) -> bool {
    wasm32::memory_grow::<0>(pages) != usize::MAX
}

struct Memory {
    free: [*mut Block; ORDERS],
    /// Where what was never taken begins; 0 at first.
    unused: usize,
    /// The bytes of the blocks that are taken.
    held: usize,
}

impl Memory {
    const fn new() -> Memory {
        Memory {
            free: [ptr::null_mut(); ORDERS],
            unused: 0,
            held: 0,
        }
    }

    /// Returns a block behind all others, or null.
    fn new_block(&mut self, order: u32) -> *mut Block {
        if self.unused == 0 {
            self.unused = (&raw const __heap_base).addr().next_multiple_of(16);
        }
        let Some(end) = self.unused.checked_add(1 << order) else {
            return ptr::null_mut();
        };
        if !reaches(end) {
            return ptr::null_mut();
        }
        let block = ptr::with_exposed_provenance_mut::<Block>(self.unused);
        self.unused = end;
        // SAFETY: the memory reaches to the end of the block, and no other block has this part of it.
        unsafe { (*block).order = order };
        block
    }

    /// Returns where `size` bytes can be held, or null.
    fn take(&mut self, size: usize) -> *mut u8 {
        let Some(order) = Block::order_for(size) else {
            return ptr::null_mut();
        };
        let free = &mut self.free[order as usize];
        let mut block = *free;
        if block.is_null() {
            block = self.new_block(order);
        } else {
            // SAFETY: it is in the list.
            *free = unsafe { (*block).next_free };
        }
        if block.is_null() {
            return ptr::null_mut();
        }
        self.held += 1 << order;
        Block::held_by(block)
    }

    /// Gives what was taken back.
    ///
    /// # Safety
    ///
    /// It comes from `take`, and isn't used afterwards.
    unsafe fn give(&mut self, held: *mut u8) {
        let block = Block::of(held);
        // SAFETY: `take` has returned what the block holds.
        let order = unsafe { (*block).order };
        self.held -= 1 << order;
        if self.held == 0 {
            *self = Memory::new();
        } else {
            let free = &mut self.free[order as usize];
            // SAFETY: the block is taken, so nothing else has it.
            unsafe { (*block).next_free = *free };
            *free = block;
        }
    }
}

struct Host(UnsafeCell<Memory>);

// SAFETY: the module has one thread.
unsafe impl Sync for Host {}

impl Host {
    /// Hands the memory to `change`, which doesn't ask for it again.
    fn with<R>(&self, change: impl FnOnce(&mut Memory) -> R) -> R {
        // SAFETY: the module has one thread, and `change` doesn't ask for the memory again.
        change(unsafe { &mut *self.0.get() })
    }
}

#[global_allocator]
static HOST: Host = Host(UnsafeCell::new(Memory::new()));

// SAFETY: what blocks hold is apart, and aligned to 16. No type that the library stores has an alignment above that.
unsafe impl GlobalAlloc for Host {
    unsafe fn alloc(&self, layout: Layout) -> *mut u8 {
        self.with(|memory| memory.take(layout.size()))
    }

    unsafe fn dealloc(&self, at: *mut u8, _layout: Layout) {
        // SAFETY: `alloc` has returned it.
        self.with(|memory| unsafe { memory.give(at) });
    }
}

/// Returns a block for what the host passes, or null where an allocation fails.
#[unsafe(no_mangle)]
extern "C" fn i_shape_take(size: usize) -> *mut u8 {
    HOST.with(|memory| memory.take(size))
}

/// Gives such a block back.
///
/// # Safety
///
/// It is one that `i_shape_take` has returned, and isn't used afterwards.
#[unsafe(no_mangle)]
unsafe extern "C" fn i_shape_give(at: *mut u8) {
    // SAFETY: the caller owes the same.
    HOST.with(|memory| unsafe { memory.give(at) });
}

/// Returns how many bytes are taken.
#[unsafe(no_mangle)]
extern "C" fn i_shape_held() -> usize {
    HOST.with(|memory| memory.held)
}

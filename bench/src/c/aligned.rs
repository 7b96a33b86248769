//! Every buffer starts at a cache line, and a long one at a page. The C
//! library's functions look at where a buffer starts, so a count would depend
//! on what else is allocated.

use std::alloc::{GlobalAlloc, Layout, System};

const LINE: usize = 64;
const PAGE: usize = 4096;
const LONG: usize = 32 << 10;

struct Aligned;

#[global_allocator]
static ALIGNED: Aligned = Aligned;

// SAFETY: the system's allocator, asked for more; a block is given back with
// the layout that it was asked for with.
unsafe impl GlobalAlloc for Aligned {
    unsafe fn alloc(&self, layout: Layout) -> *mut u8 {
        System.alloc(raised(layout))
    }

    unsafe fn dealloc(&self, block: *mut u8, layout: Layout) {
        System.dealloc(block, raised(layout));
    }
}

fn raised(layout: Layout) -> Layout {
    let align = if layout.size() < LONG { LINE } else { PAGE };
    layout.align_to(align).unwrap_or(layout)
}

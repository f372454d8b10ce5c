//! The heap that the static library takes its memory from: three functions that it names, over those of the C library
//! that every Rust program is linked with.

use std::ffi::c_void;
use std::ptr;

extern "C" {
    fn malloc(size: usize) -> *mut c_void;
    fn realloc(block: *mut c_void, size: usize) -> *mut c_void;
    fn free(block: *mut c_void);
}

/// A block, where `ok` is set. Its pointer is never null.
#[repr(C)]
struct Tried {
    ok: bool,
    block: *mut c_void,
}

fn tried(block: *mut c_void) -> Tried {
    let ok = !block.is_null();
    let block = if ok { block } else { ptr::dangling_mut() };
    Tried { ok, block }
}

/// A block of no bytes is asked for as one of its alignment's size, since `malloc` may answer null to 0.
const fn asked(size: usize, align: usize) -> usize {
    if size == 0 {
        align
    } else {
        size
    }
}

// SAFETY of the three: the library asks for alignments that divide 16, which `malloc` keeps, and hands in only blocks
// that it was given and has not freed.

#[no_mangle]
extern "C" fn rattle_alloc(size: usize, align: usize) -> Tried {
    tried(unsafe { malloc(asked(size, align)) })
}

#[no_mangle]
unsafe extern "C" fn rattle_realloc(
    block: *mut c_void,
    _kept: usize,
    size: usize,
    align: usize,
) -> Tried {
    tried(unsafe { realloc(block, asked(size, align)) })
}

#[no_mangle]
unsafe extern "C" fn rattle_dealloc(block: *mut c_void) {
    unsafe { free(block) }
}

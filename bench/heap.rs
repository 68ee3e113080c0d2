// The memory that the proved library asks its host program for.
use std::alloc::Layout;

#[repr(C)]
pub struct Tried {
    ok: bool,
    p: *mut u8,
}

// In front of each block lies its size, since it is given back by its address alone.
const FRONT: usize = 16;

#[unsafe(no_mangle)]
extern "C" fn rattle_alloc(size: usize, _align: usize) -> Tried {
    let layout = Layout::from_size_align(size + FRONT, FRONT).unwrap();
    unsafe {
        let block = std::alloc::alloc(layout);
        if block.is_null() {
            return Tried { ok: false, p: block };
        }
        block.cast::<usize>().write(size + FRONT);
        Tried {
            ok: true,
            p: block.add(FRONT),
        }
    }
}

#[unsafe(no_mangle)]
unsafe extern "C" fn rattle_realloc(p: *mut u8, _kept: usize, size: usize, _align: usize) -> Tried {
    unsafe {
        let block = p.sub(FRONT);
        let layout = Layout::from_size_align(block.cast::<usize>().read(), FRONT).unwrap();
        let moved = std::alloc::realloc(block, layout, size + FRONT);
        if moved.is_null() {
            return Tried { ok: false, p };
        }
        moved.cast::<usize>().write(size + FRONT);
        Tried {
            ok: true,
            p: moved.add(FRONT),
        }
    }
}

#[unsafe(no_mangle)]
unsafe extern "C" fn rattle_dealloc(p: *mut u8) {
    unsafe {
        let block = p.sub(FRONT);
        let layout = Layout::from_size_align(block.cast::<usize>().read(), FRONT).unwrap();
        std::alloc::dealloc(block, layout);
    }
}

//! A program without std that uses the crate of rust/ without its feature `std`: an allocator over
//! one array, a frame that is refused and its text, one that is converted, and a fill. With std in
//! the crate it does not compile, since a panic then has two handlers. The exit status is the
//! number of the first check that failed, or 0.
#![no_std]
#![no_main]

extern crate alloc;

use alloc::string::ToString;
use core::{
    alloc::{GlobalAlloc, Layout},
    cell::UnsafeCell,
    ffi::{c_char, c_int},
    panic::PanicInfo,
    ptr,
    sync::atomic::{AtomicUsize, Ordering},
};

use wentuqis::{
    Refused,
    convert::d3dcolor_fill_pixel_bytes,
    format::{D3DFMT_A8R8G8B8, D3DFMT_NV12, D3DFMT_R5G6B5},
    pixel_convert::{Region, Side, YuvSet, convert},
};

/// Hands out the bytes of one array from its start on, and takes none back.
struct Once {
    bytes: UnsafeCell<[u8; 1 << 16]>,
    used: AtomicUsize,
}

// SAFETY: no two calls of `alloc` hand out the same byte.
unsafe impl Sync for Once {}

// SAFETY: a block lies inside the array, is aligned, and is handed out once.
unsafe impl GlobalAlloc for Once {
    unsafe fn alloc(&self, layout: Layout) -> *mut u8 {
        let start: *mut u8 = self.bytes.get().cast();
        let room = layout.size() + layout.align();
        let at = self.used.fetch_add(room, Ordering::Relaxed);
        if at + room > 1 << 16 {
            return ptr::null_mut();
        }
        let past = start.wrapping_add(at);
        past.wrapping_add(past.align_offset(layout.align()))
    }

    unsafe fn dealloc(&self, _: *mut u8, _: Layout) {}
}

#[global_allocator]
static HEAP: Once = Once {
    bytes: UnsafeCell::new([0; 1 << 16]),
    used: AtomicUsize::new(0),
};

#[link(name = "c")]
unsafe extern "C" {
    safe fn abort() -> !;
}

#[panic_handler]
fn panic(_: &PanicInfo) -> ! {
    abort()
}

/// The target's own `alloc` is compiled to unwind and asks for these two; a program that aborts
/// calls neither.
#[unsafe(no_mangle)]
extern "C" fn rust_eh_personality() {
    abort()
}

#[unsafe(no_mangle)]
extern "C" fn _Unwind_Resume() {
    abort()
}

/// Two by two texels of NV12, black over white.
const FRAME: [u8; 6] = [16, 16, 235, 235, 128, 128];

fn show(screen: &mut [u8], frame: &[u8]) -> Result<(), Refused> {
    let region = Region {
        source: Side {
            pitch: 2,
            slice_pitch: 4,
            ..Side::default()
        },
        destination: Side {
            pitch: 8,
            ..Side::default()
        },
        ..Region::new(2, 2)
    };
    let (to, from) = (D3DFMT_A8R8G8B8, D3DFMT_NV12);
    convert(screen, to, frame, from, &region, &YuvSet::BT709)
}

/// The checks in their order.
fn checks() -> [bool; 4] {
    let mut screen = [9; 16];
    let short = show(&mut screen, &FRAME[..5]);
    let text = short.map_err(|refused| refused.to_string());
    let said = "source outside: the frame has 5 bytes, the region needs 6; \
                the first texel outside is column 0, row 0";
    let kept = screen == [9; 16];
    let shown = show(&mut screen, &FRAME).is_ok() && screen[..8] == [0, 0, 0, 255, 0, 0, 0, 255];
    let fill = d3dcolor_fill_pixel_bytes(0xdead_beef, D3DFMT_R5G6B5);
    [
        text.as_ref().is_err_and(|text| text == said),
        kept,
        shown,
        fill.is_some_and(|fill| fill == [0xfd, 0xad]),
    ]
}

#[unsafe(no_mangle)]
extern "C" fn main(_: c_int, _: *const *const c_char) -> c_int {
    let failed = checks().iter().position(|holds| !holds);
    failed.map_or(0, |place| place as c_int + 1)
}

//! Answers with the body in capital letters of ASCII. It stands on no library but `core`, and declares the calls of the host itself.
#![no_std]
#![no_main]

#[repr(C)]
struct Buffer {
    bytes: *mut u8,
    count: u32,
}

#[link(wasm_import_module = "wasi_snapshot_preview1")]
extern "C" {
    fn fd_read(descriptor: u32, buffers: *const Buffer, how_many: u32, count: *mut u32) -> u32;
    fn fd_write(descriptor: u32, buffers: *const Buffer, how_many: u32, count: *mut u32) -> u32;
    fn proc_exit(code: u32) -> !;
}

/// A panic is a trap: the caller is told `trap: unreachable`.
#[panic_handler]
fn panic(_: &core::panic::PanicInfo) -> ! {
    core::arch::wasm32::unreachable()
}

/// Reads the next bytes of the body; 0 of them are its end.
fn read(piece: &mut [u8]) -> usize {
    let mut count = 0;
    let buffer = Buffer { bytes: piece.as_mut_ptr(), count: piece.len() as u32 };
    if unsafe { fd_read(0, &buffer, 1, &mut count) } != 0 {
        unsafe { proc_exit(1) }
    }
    count as usize
}

/// Adds bytes to the reply; where it would have more than 65,536, the function ends with 1.
fn write(piece: &mut [u8]) {
    let mut count = 0;
    let buffer = Buffer { bytes: piece.as_mut_ptr(), count: piece.len() as u32 };
    if unsafe { fd_write(1, &buffer, 1, &mut count) } != 0 {
        unsafe { proc_exit(1) }
    }
}

#[no_mangle]
pub extern "C" fn _start() {
    let mut text = [0; 1024];
    loop {
        let count = read(&mut text);
        if count == 0 {
            return;
        }
        text[..count].make_ascii_uppercase();
        write(&mut text[..count]);
    }
}

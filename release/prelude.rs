// The functions that C calls, in Rust, for targets without machine code. release/portable made this file of the proved
// functions; don't edit it.
//
// No name is copied: an address is a number of 64 bits, the constants are below, and each call has its own stack on
// that of Rust.

#[repr(align(16))]
struct Aligned<T>(T);

fn base() -> u64 {
    CONSTANTS.0.as_ptr() as usize as u64
}

// WebAssembly has the low byte of a number first.
macro_rules! numbers {
    ($($load:ident $store:ident $number:ty;)*) => {$(
        #[inline(always)]
        unsafe fn $load(at: u64) -> $number {
            <$number>::from_le((at as usize as *const $number).read_unaligned())
        }
        #[inline(always)]
        unsafe fn $store(at: u64, value: $number) {
            (at as usize as *mut $number).write_unaligned(value.to_le())
        }
    )*};
}
numbers! {
    load8 store8 u8;
    load16 store16 u16;
    load32 store32 u32;
    load64 store64 u64;
}
// (Rust's functions may not get a null pointer, even if the length is 0.)
unsafe fn copy_bytes(to: u64, from: u64, length: u64) {
    if length != 0 {
        core::ptr::copy(
            from as usize as *const u8,
            to as usize as *mut u8,
            length as usize,
        )
    }
}
unsafe fn fill_bytes(to: u64, byte: u32, length: u64) {
    if length != 0 {
        core::ptr::write_bytes(to as usize as *mut u8, byte as u8, length as usize)
    }
}

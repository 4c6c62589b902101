//! The call of `include/outline.h` that the Rust crate makes with bytes of its
//! own alone. The bytes here are those of slices, so the pointers hold what the
//! call asks of them.

mod ffi {
    extern "C" {
        pub fn outline_counts(
            file: *const u8,
            file_len: usize,
            out: *mut u8,
            out_len: usize,
        ) -> usize;
    }
}

pub fn counts(file: &[u8], out: &mut [u8]) -> usize {
    unsafe { ffi::outline_counts(file.as_ptr(), file.len(), out.as_mut_ptr(), out.len()) }
}

//! The exported functions of the static library, called as they are. A slice goes over as its
//! pointer and its length. Each returns the refusal's number times 2^48 plus a value: the length of
//! what was written; under refusal 16 the length needed; under 5 to 9 the bit at which reading broke
//! off; under any other 0. docs/ABI.md has the numbers and layouts.
//!
//! The functions of the crate's root give typed answers; these are for callers who lend their own
//! output.
#![allow(unsafe_code)]

mod c {
    unsafe extern "C" {
        pub fn bustardcase_box_header(
            buf: *const u8,
            buf_len: usize,
            start: usize,
            out: *mut u8,
            out_len: usize,
        ) -> u64;

        pub fn bustardcase_find_box(
            buf: *const u8,
            buf_len: usize,
            box_type: u32,
            out: *mut u8,
            out_len: usize,
        ) -> u64;

        pub fn bustardcase_file_type(
            body: *const u8,
            body_len: usize,
            out: *mut u8,
            out_len: usize,
        ) -> u64;

        pub fn bustardcase_read(
            payload: *const u8,
            payload_len: usize,
            out: *mut u8,
            out_len: usize,
        ) -> u64;

        pub fn bustardcase_check(
            payload: *const u8,
            payload_len: usize,
            out: *mut u8,
            out_len: usize,
        ) -> u64;

        pub fn bustardcase_outline(
            payload: *const u8,
            payload_len: usize,
            out: *mut u8,
            out_len: usize,
        ) -> u64;

        pub fn bustardcase_diagnose(
            payload: *const u8,
            payload_len: usize,
            out: *mut u8,
            out_len: usize,
        ) -> u64;

        pub fn bustardcase_rewrite(
            payload: *const u8,
            payload_len: usize,
            out: *mut u8,
            out_len: usize,
        ) -> u64;

        pub fn bustardcase_expand(
            payload: *const u8,
            payload_len: usize,
            major: u32,
            minor: u32,
            brands: *const u8,
            brands_len: usize,
            out: *mut u8,
            out_len: usize,
        ) -> u64;

        pub fn bustardcase_find_mini(
            file: *const u8,
            file_len: usize,
            major: u32,
            minor: u32,
            brands: *const u8,
            brands_len: usize,
            out: *mut u8,
            out_len: usize,
        ) -> u64;

        pub fn bustardcase_restore(
            file: *const u8,
            file_len: usize,
            major: u32,
            minor: u32,
            brands: *const u8,
            brands_len: usize,
            out: *mut u8,
            out_len: usize,
        ) -> u64;
    }
}

/// The header of the box at `start`, as 45 bytes.
pub fn box_header(buf: &[u8], start: usize, out: &mut [u8]) -> u64 {
    // SAFETY: pointers and lengths are those of live slices, and the function asks nothing else.
    unsafe {
        c::bustardcase_box_header(buf.as_ptr(), buf.len(), start, out.as_mut_ptr(), out.len())
    }
}

/// The header of the first box of type `box_type`, as 45 bytes.
pub fn find_box(buf: &[u8], box_type: u32, out: &mut [u8]) -> u64 {
    // SAFETY: as in `box_header`.
    unsafe {
        c::bustardcase_find_box(
            buf.as_ptr(),
            buf.len(),
            box_type,
            out.as_mut_ptr(),
            out.len(),
        )
    }
}

/// The file type that the payload of an 'ftyp' box gives, as 24 bytes.
pub fn file_type(body: &[u8], out: &mut [u8]) -> u64 {
    // SAFETY: as in `box_header`.
    unsafe { c::bustardcase_file_type(body.as_ptr(), body.len(), out.as_mut_ptr(), out.len()) }
}

/// The record that `payload` reads to, as 441 bytes.
pub fn read(payload: &[u8], out: &mut [u8]) -> u64 {
    // SAFETY: as in `box_header`.
    unsafe { c::bustardcase_read(payload.as_ptr(), payload.len(), out.as_mut_ptr(), out.len()) }
}

/// The desk check of the record of `payload`, as 14 bytes.
pub fn check(payload: &[u8], out: &mut [u8]) -> u64 {
    // SAFETY: as in `box_header`.
    unsafe { c::bustardcase_check(payload.as_ptr(), payload.len(), out.as_mut_ptr(), out.len()) }
}

/// Where the parts of `payload` lie, as 500 bytes.
pub fn outline(payload: &[u8], out: &mut [u8]) -> u64 {
    // SAFETY: as in `box_header`.
    unsafe { c::bustardcase_outline(payload.as_ptr(), payload.len(), out.as_mut_ptr(), out.len()) }
}

/// Where reading `payload` broke off, as 321 bytes.
pub fn diagnose(payload: &[u8], out: &mut [u8]) -> u64 {
    // SAFETY: as in `box_header`.
    unsafe { c::bustardcase_diagnose(payload.as_ptr(), payload.len(), out.as_mut_ptr(), out.len()) }
}

/// The box that the record of `payload` is written as.
pub fn rewrite(payload: &[u8], out: &mut [u8]) -> u64 {
    // SAFETY: as in `box_header`.
    unsafe { c::bustardcase_rewrite(payload.as_ptr(), payload.len(), out.as_mut_ptr(), out.len()) }
}

/// The equivalent file of the record of `payload`.
pub fn expand(payload: &[u8], major: u32, minor: u32, brands: &[u8], out: &mut [u8]) -> u64 {
    // SAFETY: as in `box_header`.
    unsafe {
        c::bustardcase_expand(
            payload.as_ptr(),
            payload.len(),
            major,
            minor,
            brands.as_ptr(),
            brands.len(),
            out.as_mut_ptr(),
            out.len(),
        )
    }
}

/// The record that expands to `file`, as 441 bytes.
pub fn find_mini(file: &[u8], major: u32, minor: u32, brands: &[u8], out: &mut [u8]) -> u64 {
    // SAFETY: as in `box_header`.
    unsafe {
        c::bustardcase_find_mini(
            file.as_ptr(),
            file.len(),
            major,
            minor,
            brands.as_ptr(),
            brands.len(),
            out.as_mut_ptr(),
            out.len(),
        )
    }
}

/// The box that the record which expands to `file` is written as.
pub fn restore(file: &[u8], major: u32, minor: u32, brands: &[u8], out: &mut [u8]) -> u64 {
    // SAFETY: as in `box_header`.
    unsafe {
        c::bustardcase_restore(
            file.as_ptr(),
            file.len(),
            major,
            minor,
            brands.as_ptr(),
            brands.len(),
            out.as_mut_ptr(),
            out.len(),
        )
    }
}

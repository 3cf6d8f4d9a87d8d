//! The proved digest, linked from the archive of the crate `exports`.

mod c {
    unsafe extern "C" {
        pub fn digest_sha256(bytes: *const u8, len: usize, out: *mut u8, out_len: usize) -> bool;
    }
}

pub fn digest(message: &[u8]) -> [u8; 32] {
    let mut out = [0; 32];
    // SAFETY: it reads only the `len` bytes and writes only the `out_len` ones,
    // and both slices are alive and apart.
    let written =
        unsafe { c::digest_sha256(message.as_ptr(), message.len(), out.as_mut_ptr(), out.len()) };
    assert!(written, "the proved digest refused a room of 32 bytes");
    out
}

//! The comparison of the proved crate encoding_exports, and a safe call of it.

#[link(name = "encoding_exports", kind = "static")]
extern "C" {
    fn encoding_same(a: *const u8, a_len: usize, b: *const u8, b_len: usize) -> bool;
}

pub fn same(a: &[u8], b: &[u8]) -> bool {
    unsafe { encoding_same(a.as_ptr(), a.len(), b.as_ptr(), b.len()) }
}

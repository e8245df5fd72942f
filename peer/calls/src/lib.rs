//! The function of `crates/peer_bridge`, declared as its source has it: nothing checks one against the other. A slice crosses as
//! a pointer and then a length. It asks nothing of its arguments.

use peer::calls::{Reply, Request};

unsafe extern "C" {
    fn peer_bridge_run(
        rule: u8,
        values: *const u16,
        value_count: usize,
        requests: *const Request,
        request_count: usize,
        replies: *mut Reply,
        reply_count: usize,
        pool: *mut u64,
        pool_length: usize,
        book: *mut u64,
        book_length: usize,
    );
}

/// The product's side, by its static library.
pub fn product(rule: u8, values: &[u16], requests: &[Request], replies: &mut [Reply], pool: &mut [u64], book: &mut [u64]) {
    // SAFETY: each pointer and length are those of one slice, which is borrowed for the call, and the declaration fits the
    // bridge's source.
    unsafe {
        peer_bridge_run(
            rule,
            values.as_ptr(),
            values.len(),
            requests.as_ptr(),
            requests.len(),
            replies.as_mut_ptr(),
            replies.len(),
            pool.as_mut_ptr(),
            pool.len(),
            book.as_mut_ptr(),
            book.len(),
        )
    }
}

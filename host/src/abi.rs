//! The exported functions of the proved static library, as `include/balzenoh.h` has them.

#[rustfmt::skip]
extern "C" {
    pub fn balzenoh_seal(
        key: *const u8, key_len: usize, iv: *const u8, iv_len: usize, message: *const u8, message_len: usize,
        out: *mut u8, out_len: usize, length: *mut usize,
    ) -> u8;
    pub fn balzenoh_open(
        key: *const u8, key_len: usize, sealed: *const u8, sealed_len: usize,
        out: *mut u8, out_len: usize, length: *mut usize,
    ) -> u8;
    pub fn balzenoh_seal_run(
        key: *const u8, key_len: usize, iv: *const u8, iv_len: usize, first: u32, last: u8, bytes: *const u8, bytes_len: usize,
        out: *mut u8, out_len: usize, length: *mut usize, run: *mut u8, run_len: usize,
    ) -> u8;
    pub fn balzenoh_check_run(
        key: *const u8, key_len: usize, iv: *const u8, iv_len: usize, first: u32, bytes: *const u8, bytes_len: usize,
        run: *mut u8, run_len: usize,
    ) -> u8;
    pub fn balzenoh_join(
        left: *const u8, left_len: usize, right: *const u8, right_len: usize, run: *mut u8, run_len: usize,
    ) -> u8;
    pub fn balzenoh_join_list(
        records: *const u8, records_len: usize, run: *mut u8, run_len: usize,
    ) -> u8;
    pub fn balzenoh_close(
        key: *const u8, key_len: usize, iv: *const u8, iv_len: usize, run: *const u8, run_len: usize,
        tag: *mut u8, tag_len: usize,
    ) -> u8;
    pub fn balzenoh_test(
        key: *const u8, key_len: usize, iv: *const u8, iv_len: usize, run: *const u8, run_len: usize,
        tag: *const u8, tag_len: usize,
    ) -> u8;
    pub fn balzenoh_jump(
        mask: *const u8, mask_len: usize, distance: i32, out: *mut u8, out_len: usize,
    ) -> u8;
    pub fn balzenoh_sha1(
        text: *const u8, text_len: usize, out: *mut u8, out_len: usize,
    ) -> u8;
    pub fn balzenoh_seal_sha1(
        key: *const u8, key_len: usize, iv: *const u8, iv_len: usize, message: *const u8, message_len: usize,
        out: *mut u8, out_len: usize, length: *mut usize,
    ) -> u8;
    pub fn balzenoh_open_sha1(
        key: *const u8, key_len: usize, sealed: *const u8, sealed_len: usize,
        out: *mut u8, out_len: usize, length: *mut usize,
    ) -> u8;
    pub fn balzenoh_close_sha1(
        key: *const u8, key_len: usize, iv: *const u8, iv_len: usize, run: *const u8, run_len: usize,
        tag: *mut u8, tag_len: usize,
    ) -> u8;
    pub fn balzenoh_test_sha1(
        key: *const u8, key_len: usize, iv: *const u8, iv_len: usize, run: *const u8, run_len: usize,
        tag: *const u8, tag_len: usize,
    ) -> u8;
}

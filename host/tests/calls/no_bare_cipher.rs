//! In the place of the bare cipher's tests, where its archive is missing.

#[test]
fn its_tests_are_left_out() {
    println!("no libaes_blocks.a here: the tests of the bare cipher are skipped");
}

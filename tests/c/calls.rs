// The archive called from Rust: each call once, with its code, lines and word.
extern "C" {
    fn bxcan_block_size(board: u32) -> usize;
    fn bxcan_reset(board: u32, block: *mut u8, len: usize) -> u64;
    fn bxcan_read(board: u32, block: *mut u8, len: usize, offset: u32) -> u64;
    fn bxcan_write(board: u32, block: *mut u8, len: usize, offset: u32, word: u32) -> u64;
    fn bxcan_idle(board: u32, block: *mut u8, len: usize) -> u64;
    fn bxcan_bit_times(board: u32, block: *mut u8, len: usize, n: u32) -> u64;
    fn bxcan_activity(board: u32, block: *mut u8, len: usize) -> u64;
    fn bxcan_start(board: u32, block: *mut u8, len: usize) -> u64;
    fn bxcan_own_end(board: u32, block: *mut u8, len: usize, result: u32) -> u64;
    fn bxcan_frame(board: u32, block: *mut u8, len: usize, identifier: u32, length: u32, low: u32, high: u32) -> u64;
    fn bxcan_receive_error(board: u32, block: *mut u8, len: usize, code: u32, step: u32) -> u64;
}

/// What a call answers: code, lines, word.
fn answer(a: u64) -> (u64, u64, u64) {
    (a & 0xFFFF00FF, a >> 8 & 0xFF, a >> 32)
}

fn main() {
    let mut passed = 0;
    let mut failed = 0;
    let mut expect = |name: &str, came: u64, wanted: (u64, u64, u64)| {
        if answer(came) == wanted {
            passed += 1;
        } else {
            failed += 1;
            eprintln!("{name}: code, lines and word {:x?}, expected {wanted:x?}", answer(came));
        }
    };
    // Each call is on bytes of this program, with their length.
    unsafe {
        let mut bytes = vec![0xEEu8; bxcan_block_size(0)];
        let (b, n) = (bytes.as_mut_ptr(), bytes.len());
        let frame = 0x123 << 21;
        expect("size", n as u64, (354 & 0xFF, 1, 0));
        expect("size of another board", bxcan_block_size(1) as u64, (0, 0, 0));
        expect("bytes without meaning", bxcan_read(0, b, n, 0), (10, 0, 0));
        expect("reset", bxcan_reset(0, b, n), (0, 0, 0));
        expect("activity", bxcan_activity(0, b, n), (0, 0, 0));
        expect("read", bxcan_read(0, b, n, 4), (0, 0, 0xC0A));
        expect("one bank for all frames", bxcan_write(0, b, n, 0x20C, 1) | bxcan_write(0, b, n, 0x21C, 1), (0, 0, 0));
        expect("FINIT=0", bxcan_write(0, b, n, 0x200, 0), (0, 0, 0));
        expect("enables", bxcan_write(0, b, n, 0x014, 0x3), (0, 0, 0));
        expect("TTCM, no SLEEP", bxcan_write(0, b, n, 0, 0x80), (0, 0, 0));
        expect("idle", bxcan_idle(0, b, n), (0, 0, 0));
        expect("bit times", bxcan_bit_times(0, b, n, 0x123), (0, 0, 0));
        expect("frame", bxcan_frame(0, b, n, frame, 5, 0x44332211, 0x88776655), (0, 2, 0));
        expect("RDT", bxcan_read(0, b, n, 0x1B4), (0, 2, 0x01230005));
        expect("RDH", bxcan_read(0, b, n, 0x1BC), (0, 2, 0x55));
        expect("receive error", bxcan_receive_error(0, b, n, 6, 8), (0, 2, 0));
        expect("ESR", bxcan_read(0, b, n, 0x18), (0, 2, 0x08000060));
        expect("request", bxcan_write(0, b, n, 0x190, frame | 1), (0, 2, 0));
        expect("start", bxcan_start(0, b, n), (0, 2, 1));
        expect("own end", bxcan_own_end(0, b, n, 0), (0, 3, 0));
        expect("refused", bxcan_own_end(0, b, n, 0), (4, 3, 0));
        expect("a cut block", bxcan_idle(0, b, n - 1), (10, 0, 0));
        expect("a null pointer", bxcan_reset(0, std::ptr::null_mut(), 0), (10, 0, 0));
    }
    println!("rust: {passed} passed, {failed} failed");
    std::process::exit((failed > 0) as i32);
}

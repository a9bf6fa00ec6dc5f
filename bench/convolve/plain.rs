// The second yardstick: the same plain double loop in Rust, with its tests of indexes.
#[no_mangle]
pub unsafe extern "C" fn rust_convolve(a: *const u64, n: usize, b: *const u64, m: usize, out: *mut u64, len: usize) {
    let (a, b) = (std::slice::from_raw_parts(a, n), std::slice::from_raw_parts(b, m));
    let out = std::slice::from_raw_parts_mut(out, len);
    for i in 0..len {
        let first = if i < b.len() { 0 } else { i - (b.len() - 1) };
        let last = if i < a.len() { i + 1 } else { a.len() };
        let mut total: u128 = 0;
        for k in first..last {
            total += a[k] as u128 * b[i - k] as u128;
        }
        out[i] = (total >> 60) as u64;
    }
}

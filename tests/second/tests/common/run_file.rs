//! Run files by their words.

/// Paper 01's example.
pub const EXAMPLE: [u32; 11] = [
    0x10001021, 0x20000802, 0x30000007, 0x50000000, 0x50000000, 0x50000000, 0x40000000, 0x50000000,
    0x50000000, 0x50000000, 0x60000000,
];

pub fn bytes(words: &[u32]) -> Vec<u8> {
    words.iter().flat_map(|word| word.to_le_bytes()).collect()
}

/// Calls of a queue with one worker, all refused but the third.
pub const REFUSED_CALLS: [u32; 8] = [
    0x10001021, 0x20000802, // queue w 1, d 1, R 2, n 1
    0x50000000, // step on an idle worker
    0x30400007, // begin put, worker 1 of 1
    0x30000007, // begin put, worker 0
    0x40000000, // begin take, busy
    0x5fc00000, // step, worker 63
    0x60000000,
];

/// Two puts at commit in sub 0 of three: the second one's fails, and it lands in
/// the sub that is the stride further on.
pub fn a_lost_commit(stride: u32) -> Vec<u32> {
    let mut words = vec![
        0x10001023 | stride << 20,
        0x20002002,
        0x30000014,
        0x30c00017,
    ];
    let [zero, three] = [0x50000000, 0x50c00000];
    words.extend([zero, zero, three, three, zero]);
    words.extend([three; 4]);
    words.push(0x60000000);
    words
}

/// Worker 0 puts twice, worker 1 puts and takes: "a take at the bound".
pub fn a_take_at_the_bound(values: [u32; 3]) -> Vec<u32> {
    let mut words = vec![0x10002042, 0x20001004];
    let [first, second, third] = values;
    for (worker, begin) in [
        (0, 0x30000000 | first),
        (0, 0x30000000 | second),
        (1, 0x30400000 | third),
        (1, 0x40400000),
    ] {
        words.push(begin);
        words.extend([0x50000000 | worker << 22; 3]);
    }
    words.push(0x60000000);
    words
}

//! How much memory the tests take.

/// How many pages of this process are in memory.
pub fn resident() -> usize {
    let told = std::fs::read_to_string("/proc/self/statm").unwrap();
    told.split(' ').nth(1).unwrap().parse().unwrap()
}

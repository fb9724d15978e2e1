//! Inputs in the messages of tests.

/// The number of bytes and the first of them that are not zero.
pub fn shown(input: &[u8]) -> String {
    let bytes = input.iter().enumerate().filter(|(_, &byte)| byte != 0);
    let bytes: Vec<String> = bytes
        .take(64)
        .map(|(place, byte)| format!("{place}: {byte}"))
        .collect();
    format!("input of {} bytes, {}", input.len(), bytes.join(", "))
}

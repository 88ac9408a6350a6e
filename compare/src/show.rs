//! How a buffer is printed: `~` is CR LF, SET is the byte ~, and other bytes that are no plain text stand as \xNN.

pub fn show(buf: &[u8]) -> String {
    let mut out = String::new();
    let mut i = 0;
    while i < buf.len() {
        match buf[i] {
            b'\r' if buf.get(i + 1) == Some(&b'\n') => {
                out.push('~');
                i += 1;
            }
            b'~' => out.push_str("SET"),
            b @ 0x20..=0x7e => out.push(b as char),
            b => out.push_str(&format!("\\x{b:02x}")),
        }
        i += 1;
    }
    out
}

#[cfg(feature = "ours")]
/// 1234567 as 1,234,567.
pub fn commas(n: u64) -> String {
    let digits = n.to_string();
    let mut out = String::new();
    for (i, c) in digits.chars().enumerate() {
        if i != 0 && (digits.len() - i) % 3 == 0 {
            out.push(',');
        }
        out.push(c);
    }
    out
}

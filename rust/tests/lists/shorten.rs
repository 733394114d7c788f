//! What differs, made short and printed.

/// Takes items away, many at once at first, while what is left still differs.
pub fn shortened<T: Clone>(items: &[T], differs: impl Fn(&[T]) -> bool) -> Vec<T> {
    let mut items = items.to_vec();
    let mut width = items.len();
    while width > 0 {
        let mut at = 0;
        while at < items.len() {
            let mut fewer = items.clone();
            fewer.drain(at..(at + width).min(items.len()));
            if differs(&fewer) {
                items = fewer;
            } else {
                at += width;
            }
        }
        width /= 2;
    }
    items
}

pub fn hexadecimal(bytes: &[u8]) -> String {
    bytes.iter().map(|byte| format!("{byte:02x}")).collect()
}

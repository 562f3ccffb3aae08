//! Makes a trace that shows a difference as small as it can.

/// The smallest trace found within `tries` that still differs.
pub fn shrink_bytes(trace: &[u8], mut tries: usize, differs: &mut dyn FnMut(&[u8]) -> bool) -> Vec<u8> {
    let lines: Vec<Vec<u8>> = trace.split_inclusive(|&byte| byte == b'\n').map(|line| line.to_vec()).collect();
    let lines = drop_blocks(lines, &mut tries, &mut |lines: &[Vec<u8>]| differs(&lines.concat()));
    let bytes = lines.concat();
    drop_blocks(bytes, &mut tries, &mut |bytes: &[u8]| differs(bytes))
}

/// Drops blocks of items, large ones first, while what is left still differs.
fn drop_blocks<T: Clone>(mut items: Vec<T>, tries: &mut usize, differs: &mut dyn FnMut(&[T]) -> bool) -> Vec<T> {
    let mut block = items.len().div_ceil(2);
    while block > 0 {
        let mut start = 0;
        while start < items.len() {
            if *tries == 0 {
                return items;
            }
            *tries -= 1;
            let end = (start + block).min(items.len());
            let fewer = [&items[..start], &items[end..]].concat();
            if differs(&fewer) {
                items = fewer;
            } else {
                start += block;
            }
        }
        block /= 2;
    }
    items
}

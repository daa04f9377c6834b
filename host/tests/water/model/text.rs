//! "Depth text".

use super::site::HEIGHTS;

fn text_of(height: i32) -> String {
    match height {
        0 => "dry".to_string(),
        1..=9_999 => "<1 cm".to_string(),
        _ => format!("{} cm", (height + 5_000) / 10_000),
    }
}

/// The call: the length of the text at the front of the scratch, or 0 and the scratch as lent.
pub fn depth_text(height: i32, scratch: &mut [u8]) -> usize {
    if !HEIGHTS.contains(&height) {
        return 0;
    }
    let text = text_of(height);
    if scratch.len() < text.len() {
        return 0;
    }
    scratch[..text.len()].copy_from_slice(text.as_bytes());
    text.len()
}

//! Sheets of room texts.

use crate::exports;

/// The bytes that are enough for every sheet.
pub const LONGEST_SHEET: usize = 200_000;

/// What program `sheet` prints for a room text: its sheet, or one line `refused` with number and place.
///
/// ```
/// let room = b"3\n.....\n.....\n.....\n0\n1\n16 8 24 16\n1\n0 0 4 0\n";
/// let sheet = cerandool::sheet(room);
/// assert!(sheet.starts_with("window 0 0 5 3\nsweeps 2\ncells 5\n0 0 500\n1 0 0\n"));
/// assert!(sheet.ends_with("groups 1\n0\n"));
/// assert_eq!(cerandool::sheet(b"0\n"), "refused 9 1\n");
/// ```
pub fn sheet(text: &[u8]) -> String {
    let mut out = vec![0; LONGEST_SHEET];
    let length = exports::sheet(text, &mut out);
    out.truncate(length);
    String::from_utf8(out).expect("a sheet is ASCII")
}

#[cfg(test)]
mod tests {
    use super::*;

    #[test]
    fn a_buffer_that_is_too_short_is_left_as_it_is() {
        let sheet = sheet(b"0\n");
        let mut out = vec![7; sheet.len() - 1];
        assert_eq!(exports::sheet(b"0\n", &mut out), 0);
        assert!(out.iter().all(|&byte| byte == 7));
        let mut out = vec![7; sheet.len() + 3];
        assert_eq!(exports::sheet(b"0\n", &mut out), sheet.len());
        assert_eq!(out[..sheet.len()], *sheet.as_bytes());
        assert_eq!(out[sheet.len()..], [7; 3]);
    }
}

//! The documents of the page: the HTML with its title, the style, the script
//! and the icon; and their number, by which a page that was loaded long ago
//! finds out that the server has another one.

use std::fmt::Write;
use std::sync::Arc;

const PAGE: &str = include_str!("page.html");
pub const STYLE: &[u8] = include_bytes!("page.css");
pub const SCRIPT: &[u8] = include_bytes!("page.js");
pub const ICON: &[u8] = include_bytes!("favicon.svg");
/// The title if none is given.
const TITLE: &str = "Arrivals";

pub struct Documents {
    pub page: Arc<[u8]>,
    pub number: String,
}

impl Documents {
    /// The documents with this title.
    pub fn new(title: Option<&str>) -> Documents {
        // 'Arrivals by berth'; behind another title no word is known to fit.
        let before = if title.is_none() { "by " } else { "" };
        let page = PAGE
            .replace("{{title}}", &escaped(title.unwrap_or(TITLE)))
            .replace("{{before}}", before);
        let number = format!("{:016x}", sum(&[page.as_bytes(), STYLE, SCRIPT, ICON]));
        let page = page.replace("{{page}}", &number);
        Documents {
            page: Arc::from(page.into_bytes()),
            number,
        }
    }
}

/// A text for HTML: letters, digits and blanks, every other character by its
/// number.
fn escaped(text: &str) -> String {
    let mut out = String::new();
    for character in text.chars() {
        if character.is_ascii_alphanumeric() || character == ' ' {
            out.push(character);
        } else {
            let _ = write!(out, "&#{};", u32::from(character));
        }
    }
    out
}

/// The FNV-1a sum of all bytes.
fn sum(parts: &[&[u8]]) -> u64 {
    let all = parts.iter().flat_map(|part| part.iter());
    all.fold(0xcbf2_9ce4_8422_2325, |sum, byte| {
        (sum ^ u64::from(*byte)).wrapping_mul(0x0100_0000_01b3)
    })
}

#[cfg(test)]
mod tests {
    use super::*;

    #[test]
    fn titles_are_text() {
        assert_eq!(escaped("<b>Äo 1"), "&#60;b&#62;&#196;o 1");
        let page = Documents::new(Some("</title><script>")).page;
        let text = String::from_utf8_lossy(&page);
        assert!(!text.contains("</title><script>") && !text.contains("{{"));
    }

    #[test]
    fn another_page_has_another_number() {
        // The sums of '' and 'foobar' by the authors of FNV.
        assert_eq!(sum(&[]), 0xcbf2_9ce4_8422_2325);
        assert_eq!(sum(&[b"foo", b"bar"]), 0x8594_4171_f739_67e8);
        let numbers = [None, Some("Arrivals"), Some("Ships")].map(|one| Documents::new(one).number);
        assert!(numbers[0] != numbers[2] && numbers[1] != numbers[2]);
        assert_eq!(numbers[0], Documents::new(None).number);
    }
}

use crate::help::hex;
use reference::is_text;

#[test]
fn good_texts() {
    for form in [
        "", "00", "41", "7f", "c280", "dfbf", "e0a080", "ed9fbf", "ee8080", "efbfbf",
    ] {
        assert!(is_text(&hex(form)), "{form}");
    }
    for form in ["f0908080", "f3bfbfbf", "f48fbfbf", "41c3a9e282acf09f9aa2"] {
        assert!(is_text(&hex(form)), "{form}");
    }
}

#[test]
fn bad_texts() {
    for form in [
        "c3", "c080", "eda080", "c1bf", "e09fbf", "edbfbf", "80", "bf", "f4908080",
    ] {
        assert!(!is_text(&hex(form)), "{form}");
    }
    for form in [
        "f08fbfbf", "f5808080", "ff", "fe", "e28241", "e282", "f09f9a", "c3c3", "41c3",
    ] {
        assert!(!is_text(&hex(form)), "{form}");
    }
}

/// The library of the language has its own judge of texts.
#[test]
fn the_same_as_the_judge_of_the_library() {
    let edges = [
        0x00, 0x7f, 0x80, 0x8f, 0x90, 0x9f, 0xa0, 0xbf, 0xc0, 0xc1, 0xc2, 0xdf, 0xe0, 0xe1, 0xec,
        0xed, 0xee, 0xef, 0xf0, 0xf1, 0xf3, 0xf4, 0xf5, 0xff,
    ];
    for a in 0..=255u8 {
        for b in 0..=255u8 {
            same(&[a, b]);
            for c in edges {
                same(&[a, b, c]);
            }
        }
        for b in edges {
            for c in edges {
                for d in edges {
                    same(&[a, b, c, d]);
                }
            }
        }
        same(&[a]);
    }
}

fn same(bytes: &[u8]) {
    assert_eq!(
        is_text(bytes),
        std::str::from_utf8(bytes).is_ok(),
        "{bytes:x?}"
    );
}

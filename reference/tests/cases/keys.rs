use reference::{same_key, Compared};

fn equal(pairs: usize) -> Compared {
    Compared { equal: true, pairs }
}

fn unlike(pairs: usize) -> Compared {
    Compared {
        equal: false,
        pairs,
    }
}

#[test]
fn unlike_lengths_compare_no_pair() {
    assert_eq!(same_key(b"", b"a"), unlike(0));
    assert_eq!(same_key(b"berth/1", b"berth/"), unlike(0));
    assert_eq!(same_key(b"/1", b"berth/1"), unlike(0));
    assert_eq!(same_key(&[0; 64], &[0; 65]), unlike(0));
}

#[test]
fn equal_keys_compare_all_pairs() {
    assert_eq!(same_key(b"", b""), equal(0));
    assert_eq!(same_key(b"a", b"a"), equal(1));
    assert_eq!(same_key(b"berth/12", b"berth/12"), equal(8));
    assert_eq!(same_key(&[255; 64], &[255; 64]), equal(64));
}

#[test]
fn pairs_are_compared_from_the_end_through_the_first_unlike_one() {
    assert_eq!(same_key(b"berth/12", b"berth/13"), unlike(1));
    assert_eq!(same_key(b"berth/12", b"berth/22"), unlike(2));
    assert_eq!(same_key(b"berth/12", b"Berth/12"), unlike(8));
    assert_eq!(same_key(b"abcd", b"xbcx"), unlike(1));
    assert_eq!(same_key(b"a", b"b"), unlike(1));
    for place in 0..64 {
        let mut other = [7; 64];
        other[place] = 8;
        assert_eq!(same_key(&[7; 64], &other), unlike(64 - place));
    }
}

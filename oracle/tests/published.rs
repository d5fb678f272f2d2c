//! Without the marked edits, nebari/btree_entry.rs is the published text of nebari 0.5.5, src/tree/btree_entry.rs.

const TEXT: &str = include_str!("../nebari/btree_entry.rs");

/// The text without what stands between EDIT and END EDIT, and the numbers of the edits.
fn without_edits() -> (String, Vec<String>) {
    let (mut out, mut edits, mut inside) = (String::new(), vec![], None);
    for line in TEXT.lines() {
        let words = line.trim();
        if let Some(n) = words.strip_prefix("// END EDIT ") {
            assert_eq!(inside.take().as_deref(), Some(n));
        } else if inside.is_none() && words.starts_with("// EDIT ") {
            inside = Some(words["// EDIT ".len()..].to_string());
            edits.extend(inside.clone());
        } else if inside.is_none() {
            out.push_str(line);
            out.push('\n');
        }
    }
    (out, edits)
}

/// FNV-1a, 64 bits.
fn hash(bytes: &[u8]) -> u64 {
    bytes.iter().fold(0xcbf2_9ce4_8422_2325, |h, &b| (h ^ u64::from(b)).wrapping_mul(0x100_0000_01b3))
}

#[test]
fn the_rest_is_as_published() {
    let (text, edits) = without_edits();
    assert_eq!(edits, ["0", "4", "1", "2", "3"]);
    assert_eq!((text.len(), text.lines().count()), (55_812, 1429));
    assert_eq!(hash(text.as_bytes()), 0xa676_80bc_f468_539d);
}

//! Tests that the named forms of a reader's hash are those of its bytes.

use rapidhash::{v1, v2};
type Fail = Box<dyn std::error::Error>;

#[test]
fn v1_file_forms() -> Result<(), Fail> {
    let secrets = v1::RapidSecrets::seed(1);
    for text in [&b"abc"[..], &[5; 100][..], &[6; 9000][..]] {
        let len = text.len() as u64;
        assert_eq!(
            v1::rapidhash_v1_file_seeded::<&[u8]>(&mut &text[..], len, &secrets)?,
            v1::rapidhash_v1_seeded(text, &secrets)
        );
        assert_eq!(
            v1::rapidhash_v1_file_inline::<&[u8], true>(&mut &text[..], len, &secrets)?,
            v1::rapidhash_v1_inline::<true, false, true, false>(text, &secrets)
        );
    }
    Ok(())
}

#[test]
fn v2_file_forms() -> Result<(), Fail> {
    let secrets = v2::RapidSecrets::seed(1);
    for text in [&b"abc"[..], &[5; 100][..], &[6; 9000][..]] {
        let len = text.len() as u64;
        assert_eq!(v2::rapidhash_v2_2_file::<&[u8]>(&mut &text[..], len)?, v2::rapidhash_v2_2(text));
        assert_eq!(
            v2::rapidhash_v2_2_file_seeded::<&[u8]>(&mut &text[..], len, &secrets)?,
            v2::rapidhash_v2_2_seeded(text, &secrets)
        );
        assert_eq!(
            v2::rapidhash_v2_file_inline::<&[u8], 0, true>(&mut &text[..], len, &secrets)?,
            v2::rapidhash_v2_inline::<0, true, false, true>(text, &secrets)
        );
    }
    Ok(())
}

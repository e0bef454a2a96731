//! Tests of the package, beyond passing calls on: strings, borrowed results, and panics.

use encoding_rs::*;
use std::borrow::Cow;
use std::collections::HashSet;

#[test]
fn names_and_encodings_are_one_to_one() {
    let names: HashSet<&str> = HashSet::from([UTF_8.name(), BIG5.name(), X_USER_DEFINED.name()]);
    assert_eq!(names, HashSet::from(["UTF-8", "Big5", "x-user-defined"]));
    assert_eq!(Encoding::for_label(b"sjis"), Some(SHIFT_JIS));
    assert_ne!(UTF_16LE, UTF_16BE);
    assert_eq!(UTF_16LE.output_encoding(), &UTF_8_INIT);
    assert_eq!(format!("{GBK:?}"), "Encoding { GBK }");
}

#[test]
fn decode_borrows_what_is_its_own_text() {
    let (text, encoding, replaced) = WINDOWS_1252.decode("\u{FEFF}é".as_bytes());
    assert!(matches!(text, Cow::Borrowed("é")));
    assert_eq!((encoding, replaced), (UTF_8, false));
    let (text, replaced) = WINDOWS_1252.decode_with_bom_removal(b"caf\xE9");
    assert!(matches!(text, Cow::Owned(_)) && text == "café" && !replaced);
    assert_eq!(
        UTF_8.decode_without_bom_handling_and_without_replacement(b"\xFF"),
        None
    );
    assert!(matches!(UTF_16LE.decode(b"").0, Cow::Owned(_)));
}

#[test]
fn encode_grows_for_references() {
    let text = "\u{1F4A9}".repeat(1000);
    let (bytes, encoding, replaced) = KOI8_U.encode(&text);
    assert_eq!(bytes, "&#128169;".repeat(1000).as_bytes());
    assert_eq!((encoding, replaced), (KOI8_U, true));
    assert!(matches!(UTF_16LE.encode("é").0, Cow::Borrowed(_)));
}

#[test]
fn strings_stay_within_their_capacity() {
    let mut decoder = SHIFT_JIS.new_decoder();
    let mut text = String::from("a");
    text.reserve_exact(7);
    let capacity = text.capacity();
    let bytes = b"\x93\xFA\x96\x7B\x8C\xEA";
    let (result, read, _) = decoder.decode_to_string(bytes, &mut text, true);
    assert_eq!(
        (result, text.as_str(), text.capacity()),
        (CoderResult::OutputFull, "a日本", capacity)
    );
    text.reserve(8);
    let (result, _, _) = decoder.decode_to_string(&bytes[read..], &mut text, true);
    assert_eq!(
        (result, text.as_str()),
        (CoderResult::InputEmpty, "a日本語")
    );
    let mut bytes = Vec::with_capacity(4);
    let (result, read) = EUC_KR
        .new_encoder()
        .encode_from_utf8_to_vec_without_replacement("ab한", &mut bytes, true);
    assert_eq!(
        (result, read, bytes.as_slice()),
        (EncoderResult::InputEmpty, 5, &b"ab\xC7\xD1"[..])
    );
}

#[test]
fn a_str_stays_well_formed() {
    let mut text = String::from("日本語");
    let (result, _, written, _) = UTF_8.new_decoder().decode_to_str(b"abcd", &mut text, true);
    assert_eq!((result, written), (CoderResult::InputEmpty, 4));
    assert_eq!(text, "abcd\0\0語");
    let mut text = String::from("é");
    let (result, read, written) = UTF_8
        .new_decoder()
        .decode_to_str_without_replacement(b"a\xFF", &mut text, true);
    assert_eq!(
        (result, read, written),
        (DecoderResult::Malformed(1, 0), 2, 1)
    );
    assert_eq!(text, "a\0");
}

#[test]
fn queries_leave_the_decoder_as_it_is() {
    let mut decoder = UTF_8.new_decoder();
    let _ = decoder.decode_to_utf8(b"\xFF\xFE", &mut [0; 8], false);
    assert_eq!(decoder.encoding(), UTF_16LE);
    assert_eq!(decoder.latin1_byte_compatible_up_to(b"a"), None);
    assert_eq!(decoder.max_utf8_buffer_length(usize::MAX), None);
    fn is_shared<T: Send + Sync>(_: &T) {}
    is_shared(&decoder);
    is_shared(&UTF_8.new_encoder());
}

#[test]
#[should_panic = "Must not use a decoder that has finished."]
fn a_finished_decoder_panics() {
    let mut decoder = UTF_8.new_decoder();
    let _ = decoder.decode_to_utf8(b"", &mut [], true);
    let _ = decoder.decode_to_utf8(b"", &mut [], true);
}

#[test]
#[should_panic = "Must not use a decoder that has finished."]
fn a_finished_decoder_has_no_length() {
    let mut decoder = UTF_8.new_decoder();
    let _ = decoder.decode_to_utf8_without_replacement(b"", &mut [], true);
    let _ = decoder.max_utf16_buffer_length(1);
}

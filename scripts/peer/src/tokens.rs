//! What hostile inputs are made of: for each encoding, bytes and sequences at the edges of its decoder's steps.
use encoding_rs::Encoding;

pub type Token = &'static [u8];

/// Leads and trails at the ends of each range and beside them, parts of characters, a surrogate, U+FFFD, and a byte
/// order mark.
const UTF_8: &[Token] = &[
    b"a", b"\x7f", b"\x80", b"\x8f", b"\x90", b"\x9f", b"\xa0", b"\xbf", b"\xc0", b"\xc1", b"\xc2", b"\xdf", b"\xe0",
    b"\xe1", b"\xed", b"\xef", b"\xf0", b"\xf1", b"\xf4", b"\xf5", b"\xff", b"\xe2\x82", b"\xf0\x9f\x92",
    b"\xed\xa0\x80", b"\xef\xbf\xbd", b"\xef\xbb\xbf",
];

/// Surrogates, their halves, pairs, and what lies beside them, in both orders of bytes.
const UTF_16: &[Token] = &[
    b"\0", b"a", b"\xd7", b"\xd8", b"\xdb", b"\xdc", b"\xdf", b"\xe0", b"\xfe", b"\xff", b"\0a", b"a\0", b"\xd8\0",
    b"\0\xd8", b"\xdb\xff", b"\xff\xdb", b"\xdc\0", b"\0\xdc", b"\xdf\xff", b"\xff\xdf", b"\xff\xfd", b"\xfd\xff",
    b"\xd8\x3d\xde\0", b"\x3d\xd8\0\xde",
];

/// Leads, trails and digits, unfinished sequences of each length, the ends of the ranges, what lies past them, and the
/// sequences of the pointer 7457 and of U+FFFD.
const GB18030: &[Token] = &[
    b"a", b"\n", b"/", b"0", b"5", b"9", b":", b"@", b"~", b"\x7f", b"\x80", b"\x81", b"\x84", b"\x90", b"\xa6",
    b"\xd9", b"\xe3", b"\xfe", b"\xff", b"\x810", b"\x810\x81", b"\x810\x810", b"\x815\xf47", b"\xa8\xbc",
    b"\x841\xa4", b"\x841\xa47", b"\x841\xa49", b"\x841\xa50", b"\x8f9\xfe9", b"\x900\x810", b"\xe32\x9a5",
    b"\xe32\x9a6", b"\xfe9\xfe9",
];

/// Leads and trails at the ends of their ranges, ASCII trails, the four pointers of two characters and those beside
/// them, and pointers with no entry.
const BIG5: &[Token] = &[
    b"a", b"\n", b"?", b"@", b"~", b"\x7f", b"\x80", b"\x81", b"\x87", b"\x88", b"b", b"c", b"d", b"\xa0", b"\xa1",
    b"\xa3", b"\xa5", b"\xfe", b"\xff", b"\x81@", b"\x87@", b"\x88b", b"\x88d", b"\x88\xa3", b"\x88\xa5", b"\xa4@",
    b"\xc6\xa1", b"\xf9\xd5", b"\xfe\xfe",
];

/// The same, with both bytes that begin other sequences, half-width katakana, and sequences of jis0212, unfinished and
/// whole.
const EUC_JP: &[Token] = &[
    b"a", b"\n", b"\x7f", b"\x80", b"\x8d", b"\x8e", b"\x8f", b"\x90", b"\xa0", b"\xa1", b"\xa2", b"\xaf", b"\xdf",
    b"\xe0", b"\xf4", b"\xfe", b"\xff", b"\x8e\xb1", b"\x8e\xe0", b"\x8f\xa2", b"\x8f\xa2\xaf", b"\x8f\xb0\xa1",
    b"\x8f\x8e", b"\x8f\xa1a", b"\xa4\xa2", b"\xad\xa1", b"\xf4\xa6",
];

/// Escape sequences, whole and broken off, and those of other sets; the bytes that no set has; the ends of each set.
const ISO_2022_JP: &[Token] = &[
    b"\x1b", b"(", b"$", b"@", b"B", b"I", b"J", b"\x1b(", b"\x1b$", b"\x1b(B", b"\x1b(J", b"\x1b(I", b"\x1b$@",
    b"\x1b$B", b"\x1b$(D", b"\x1b.A", b"\x0e", b"\x0f", b"\n", b" ", b"!", b"\\", b"~", b"_", b"`", b"\x7f", b"\x80",
    b"\xa1", b"\xff", b"$\"", b"0!",
];

/// Leads and trails at the ends of their ranges, single bytes, half-width katakana, the private use area, and double
/// entries.
const SHIFT_JIS: &[Token] = &[
    b"a", b"\n", b"?", b"@", b"\\", b"~", b"\x7f", b"\x80", b"\x81", b"\x9f", b"\xa0", b"\xa1", b"\xb1", b"\xdf",
    b"\xe0", b"\xef", b"\xf0", b"\xf9", b"\xfa", b"\xfc", b"\xfd", b"\xff", b"\x81_", b"\x82\xa0", b"\x85@",
    b"\x87@", b"\xed@", b"\xef\xfc", b"\xf0@", b"\xf9\xfc", b"\xfaT", b"\xfcK",
];

/// Leads and trails at the ends of their ranges, ASCII trails and the gaps between them, and pointers with no entry.
const EUC_KR: &[Token] = &[
    b"a", b"\n", b"@", b"A", b"Z", b"[", b"`", b"z", b"{", b"R", b"S", b"\x7f", b"\x80", b"\x81", b"\xa0", b"\xa1",
    b"\xc6", b"\xc8", b"\xfd", b"\xfe", b"\xff", b"\x81A", b"\x81[", b"\xa2\xe6", b"\xb0\xa1", b"\xc6R", b"\xc6S",
    b"\xc9\xa1", b"\xfe\xfe",
];

/// Each byte stands alone: the ends of both halves, some between them, and the bytes of a mark.
const SINGLE: &[Token] = &[
    b"a", b"\0", b"\n", b"\x7f", b"\x80", b"\x81", b"\xa0", b"\xbb", b"\xbf", b"\xc0", b"\xd2", b"\xe9", b"\xef",
    b"\xfe", b"\xff",
];

pub fn tokens(encoding: &'static Encoding) -> &'static [Token] {
    match encoding.name() {
        "UTF-8" => UTF_8,
        "UTF-16BE" | "UTF-16LE" => UTF_16,
        "gb18030" | "GBK" => GB18030,
        "Big5" => BIG5,
        "EUC-JP" => EUC_JP,
        "ISO-2022-JP" => ISO_2022_JP,
        "Shift_JIS" => SHIFT_JIS,
        "EUC-KR" => EUC_KR,
        _ => SINGLE,
    }
}

/// The bytes after which every two bytes are tried, if the state depends on more than three bytes.
pub fn fronts(encoding: &'static Encoding) -> &'static [Token] {
    match encoding.name() {
        "UTF-16BE" | "UTF-16LE" => &[b"\xd8\0", b"\xdb\xff", b"\xdc\0", b"\xdf\xff", b"\0\xd8", b"\xff\xdb", b"\0\xdc"],
        "gb18030" | "GBK" => &[b"\x810", b"\x841", b"\x8f9", b"\x900", b"\xe32", b"\xfe9", b"\x815"],
        "ISO-2022-JP" => &[b"\x1b(B", b"\x1b(J", b"\x1b(I", b"\x1b$@", b"\x1b$B", b"\x1b$B0", b"\x1b$(", b"\x0e"],
        _ => &[],
    }
}

/// Byte order marks, broken off, whole, twice, one after another, and damaged.
pub const MARKS: &[Token] = &[
    b"\xef", b"\xef\xbb", b"\xef\xbb\xbf", b"\xfe", b"\xfe\xff", b"\xff", b"\xff\xfe", b"\xef\xbb\xbf\xef\xbb\xbf",
    b"\xef\xbb\xbf\xef\xbb", b"\xfe\xff\xfe\xff", b"\xff\xfe\xff\xfe", b"\xfe\xff\xff\xfe", b"\xff\xfe\xfe\xff",
    b"\xef\xbb\xbf\xff\xfe", b"\xfe\xff\xef\xbb\xbf", b"\xef\xfe\xff", b"\xef\xbb\xfe\xff", b"\xef\xbf\xbb",
    b"\xef\xef\xbb\xbf", b"\xbb\xbf", b"\xfe\xfe\xff", b"\xff\xff\xfe", b"\xff\xfe\0\0", b"\0\0\xfe\xff",
];

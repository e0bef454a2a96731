//! The encodings, each by two statics.
//!
//! Written by scripts/make-sources from data/templates: change the text there, and not this file.

use crate::Encoding;

/// The encodings by their numbers.
pub(crate) static ALL: [&Encoding; 40] = [
    UTF_8,
    IBM866,
    ISO_8859_2,
    ISO_8859_3,
    ISO_8859_4,
    ISO_8859_5,
    ISO_8859_6,
    ISO_8859_7,
    ISO_8859_8,
    ISO_8859_8_I,
    ISO_8859_10,
    ISO_8859_13,
    ISO_8859_14,
    ISO_8859_15,
    ISO_8859_16,
    KOI8_R,
    KOI8_U,
    MACINTOSH,
    WINDOWS_874,
    WINDOWS_1250,
    WINDOWS_1251,
    WINDOWS_1252,
    WINDOWS_1253,
    WINDOWS_1254,
    WINDOWS_1255,
    WINDOWS_1256,
    WINDOWS_1257,
    WINDOWS_1258,
    X_MAC_CYRILLIC,
    GBK,
    GB18030,
    BIG5,
    EUC_JP,
    ISO_2022_JP,
    SHIFT_JIS,
    EUC_KR,
    REPLACEMENT,
    UTF_16BE,
    UTF_16LE,
    X_USER_DEFINED,
];

/// UTF-8 (Encoding Standard 8.1).
pub static UTF_8: &Encoding = &UTF_8_INIT;

/// The same as [`UTF_8`], by value.
pub static UTF_8_INIT: Encoding = Encoding {
    number: 0,
    name: "UTF-8",
};

/// IBM866 (Encoding Standard 9.1).
pub static IBM866: &Encoding = &IBM866_INIT;

/// The same as [`IBM866`], by value.
pub static IBM866_INIT: Encoding = Encoding {
    number: 1,
    name: "IBM866",
};

/// ISO-8859-2 (Encoding Standard 9.1).
pub static ISO_8859_2: &Encoding = &ISO_8859_2_INIT;

/// The same as [`ISO_8859_2`], by value.
pub static ISO_8859_2_INIT: Encoding = Encoding {
    number: 2,
    name: "ISO-8859-2",
};

/// ISO-8859-3 (Encoding Standard 9.1).
pub static ISO_8859_3: &Encoding = &ISO_8859_3_INIT;

/// The same as [`ISO_8859_3`], by value.
pub static ISO_8859_3_INIT: Encoding = Encoding {
    number: 3,
    name: "ISO-8859-3",
};

/// ISO-8859-4 (Encoding Standard 9.1).
pub static ISO_8859_4: &Encoding = &ISO_8859_4_INIT;

/// The same as [`ISO_8859_4`], by value.
pub static ISO_8859_4_INIT: Encoding = Encoding {
    number: 4,
    name: "ISO-8859-4",
};

/// ISO-8859-5 (Encoding Standard 9.1).
pub static ISO_8859_5: &Encoding = &ISO_8859_5_INIT;

/// The same as [`ISO_8859_5`], by value.
pub static ISO_8859_5_INIT: Encoding = Encoding {
    number: 5,
    name: "ISO-8859-5",
};

/// ISO-8859-6 (Encoding Standard 9.1).
pub static ISO_8859_6: &Encoding = &ISO_8859_6_INIT;

/// The same as [`ISO_8859_6`], by value.
pub static ISO_8859_6_INIT: Encoding = Encoding {
    number: 6,
    name: "ISO-8859-6",
};

/// ISO-8859-7 (Encoding Standard 9.1).
pub static ISO_8859_7: &Encoding = &ISO_8859_7_INIT;

/// The same as [`ISO_8859_7`], by value.
pub static ISO_8859_7_INIT: Encoding = Encoding {
    number: 7,
    name: "ISO-8859-7",
};

/// ISO-8859-8 (Encoding Standard 9.1).
pub static ISO_8859_8: &Encoding = &ISO_8859_8_INIT;

/// The same as [`ISO_8859_8`], by value.
pub static ISO_8859_8_INIT: Encoding = Encoding {
    number: 8,
    name: "ISO-8859-8",
};

/// ISO-8859-8-I (Encoding Standard 9.1).
pub static ISO_8859_8_I: &Encoding = &ISO_8859_8_I_INIT;

/// The same as [`ISO_8859_8_I`], by value.
pub static ISO_8859_8_I_INIT: Encoding = Encoding {
    number: 9,
    name: "ISO-8859-8-I",
};

/// ISO-8859-10 (Encoding Standard 9.1).
pub static ISO_8859_10: &Encoding = &ISO_8859_10_INIT;

/// The same as [`ISO_8859_10`], by value.
pub static ISO_8859_10_INIT: Encoding = Encoding {
    number: 10,
    name: "ISO-8859-10",
};

/// ISO-8859-13 (Encoding Standard 9.1).
pub static ISO_8859_13: &Encoding = &ISO_8859_13_INIT;

/// The same as [`ISO_8859_13`], by value.
pub static ISO_8859_13_INIT: Encoding = Encoding {
    number: 11,
    name: "ISO-8859-13",
};

/// ISO-8859-14 (Encoding Standard 9.1).
pub static ISO_8859_14: &Encoding = &ISO_8859_14_INIT;

/// The same as [`ISO_8859_14`], by value.
pub static ISO_8859_14_INIT: Encoding = Encoding {
    number: 12,
    name: "ISO-8859-14",
};

/// ISO-8859-15 (Encoding Standard 9.1).
pub static ISO_8859_15: &Encoding = &ISO_8859_15_INIT;

/// The same as [`ISO_8859_15`], by value.
pub static ISO_8859_15_INIT: Encoding = Encoding {
    number: 13,
    name: "ISO-8859-15",
};

/// ISO-8859-16 (Encoding Standard 9.1).
pub static ISO_8859_16: &Encoding = &ISO_8859_16_INIT;

/// The same as [`ISO_8859_16`], by value.
pub static ISO_8859_16_INIT: Encoding = Encoding {
    number: 14,
    name: "ISO-8859-16",
};

/// KOI8-R (Encoding Standard 9.1).
pub static KOI8_R: &Encoding = &KOI8_R_INIT;

/// The same as [`KOI8_R`], by value.
pub static KOI8_R_INIT: Encoding = Encoding {
    number: 15,
    name: "KOI8-R",
};

/// KOI8-U (Encoding Standard 9.1).
pub static KOI8_U: &Encoding = &KOI8_U_INIT;

/// The same as [`KOI8_U`], by value.
pub static KOI8_U_INIT: Encoding = Encoding {
    number: 16,
    name: "KOI8-U",
};

/// macintosh (Encoding Standard 9.1).
pub static MACINTOSH: &Encoding = &MACINTOSH_INIT;

/// The same as [`MACINTOSH`], by value.
pub static MACINTOSH_INIT: Encoding = Encoding {
    number: 17,
    name: "macintosh",
};

/// windows-874 (Encoding Standard 9.1).
pub static WINDOWS_874: &Encoding = &WINDOWS_874_INIT;

/// The same as [`WINDOWS_874`], by value.
pub static WINDOWS_874_INIT: Encoding = Encoding {
    number: 18,
    name: "windows-874",
};

/// windows-1250 (Encoding Standard 9.1).
pub static WINDOWS_1250: &Encoding = &WINDOWS_1250_INIT;

/// The same as [`WINDOWS_1250`], by value.
pub static WINDOWS_1250_INIT: Encoding = Encoding {
    number: 19,
    name: "windows-1250",
};

/// windows-1251 (Encoding Standard 9.1).
pub static WINDOWS_1251: &Encoding = &WINDOWS_1251_INIT;

/// The same as [`WINDOWS_1251`], by value.
pub static WINDOWS_1251_INIT: Encoding = Encoding {
    number: 20,
    name: "windows-1251",
};

/// windows-1252 (Encoding Standard 9.1).
pub static WINDOWS_1252: &Encoding = &WINDOWS_1252_INIT;

/// The same as [`WINDOWS_1252`], by value.
pub static WINDOWS_1252_INIT: Encoding = Encoding {
    number: 21,
    name: "windows-1252",
};

/// windows-1253 (Encoding Standard 9.1).
pub static WINDOWS_1253: &Encoding = &WINDOWS_1253_INIT;

/// The same as [`WINDOWS_1253`], by value.
pub static WINDOWS_1253_INIT: Encoding = Encoding {
    number: 22,
    name: "windows-1253",
};

/// windows-1254 (Encoding Standard 9.1).
pub static WINDOWS_1254: &Encoding = &WINDOWS_1254_INIT;

/// The same as [`WINDOWS_1254`], by value.
pub static WINDOWS_1254_INIT: Encoding = Encoding {
    number: 23,
    name: "windows-1254",
};

/// windows-1255 (Encoding Standard 9.1).
pub static WINDOWS_1255: &Encoding = &WINDOWS_1255_INIT;

/// The same as [`WINDOWS_1255`], by value.
pub static WINDOWS_1255_INIT: Encoding = Encoding {
    number: 24,
    name: "windows-1255",
};

/// windows-1256 (Encoding Standard 9.1).
pub static WINDOWS_1256: &Encoding = &WINDOWS_1256_INIT;

/// The same as [`WINDOWS_1256`], by value.
pub static WINDOWS_1256_INIT: Encoding = Encoding {
    number: 25,
    name: "windows-1256",
};

/// windows-1257 (Encoding Standard 9.1).
pub static WINDOWS_1257: &Encoding = &WINDOWS_1257_INIT;

/// The same as [`WINDOWS_1257`], by value.
pub static WINDOWS_1257_INIT: Encoding = Encoding {
    number: 26,
    name: "windows-1257",
};

/// windows-1258 (Encoding Standard 9.1).
pub static WINDOWS_1258: &Encoding = &WINDOWS_1258_INIT;

/// The same as [`WINDOWS_1258`], by value.
pub static WINDOWS_1258_INIT: Encoding = Encoding {
    number: 27,
    name: "windows-1258",
};

/// x-mac-cyrillic (Encoding Standard 9.1).
pub static X_MAC_CYRILLIC: &Encoding = &X_MAC_CYRILLIC_INIT;

/// The same as [`X_MAC_CYRILLIC`], by value.
pub static X_MAC_CYRILLIC_INIT: Encoding = Encoding {
    number: 28,
    name: "x-mac-cyrillic",
};

/// GBK (Encoding Standard 10.1).
pub static GBK: &Encoding = &GBK_INIT;

/// The same as [`GBK`], by value.
pub static GBK_INIT: Encoding = Encoding {
    number: 29,
    name: "GBK",
};

/// gb18030 (Encoding Standard 10.2).
pub static GB18030: &Encoding = &GB18030_INIT;

/// The same as [`GB18030`], by value.
pub static GB18030_INIT: Encoding = Encoding {
    number: 30,
    name: "gb18030",
};

/// Big5 (Encoding Standard 11.1).
pub static BIG5: &Encoding = &BIG5_INIT;

/// The same as [`BIG5`], by value.
pub static BIG5_INIT: Encoding = Encoding {
    number: 31,
    name: "Big5",
};

/// EUC-JP (Encoding Standard 12.1).
pub static EUC_JP: &Encoding = &EUC_JP_INIT;

/// The same as [`EUC_JP`], by value.
pub static EUC_JP_INIT: Encoding = Encoding {
    number: 32,
    name: "EUC-JP",
};

/// ISO-2022-JP (Encoding Standard 12.2).
pub static ISO_2022_JP: &Encoding = &ISO_2022_JP_INIT;

/// The same as [`ISO_2022_JP`], by value.
pub static ISO_2022_JP_INIT: Encoding = Encoding {
    number: 33,
    name: "ISO-2022-JP",
};

/// Shift_JIS (Encoding Standard 12.3).
pub static SHIFT_JIS: &Encoding = &SHIFT_JIS_INIT;

/// The same as [`SHIFT_JIS`], by value.
pub static SHIFT_JIS_INIT: Encoding = Encoding {
    number: 34,
    name: "Shift_JIS",
};

/// EUC-KR (Encoding Standard 13.1).
pub static EUC_KR: &Encoding = &EUC_KR_INIT;

/// The same as [`EUC_KR`], by value.
pub static EUC_KR_INIT: Encoding = Encoding {
    number: 35,
    name: "EUC-KR",
};

/// replacement (Encoding Standard 14.1).
pub static REPLACEMENT: &Encoding = &REPLACEMENT_INIT;

/// The same as [`REPLACEMENT`], by value.
pub static REPLACEMENT_INIT: Encoding = Encoding {
    number: 36,
    name: "replacement",
};

/// UTF-16BE (Encoding Standard 14.3).
pub static UTF_16BE: &Encoding = &UTF_16BE_INIT;

/// The same as [`UTF_16BE`], by value.
pub static UTF_16BE_INIT: Encoding = Encoding {
    number: 37,
    name: "UTF-16BE",
};

/// UTF-16LE (Encoding Standard 14.4).
pub static UTF_16LE: &Encoding = &UTF_16LE_INIT;

/// The same as [`UTF_16LE`], by value.
pub static UTF_16LE_INIT: Encoding = Encoding {
    number: 38,
    name: "UTF-16LE",
};

/// x-user-defined (Encoding Standard 14.5).
pub static X_USER_DEFINED: &Encoding = &X_USER_DEFINED_INIT;

/// The same as [`X_USER_DEFINED`], by value.
pub static X_USER_DEFINED_INIT: Encoding = Encoding {
    number: 39,
    name: "x-user-defined",
};

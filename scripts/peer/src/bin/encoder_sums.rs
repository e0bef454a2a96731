//! Writes a line `NAME REPORT REPLACE` for each encoding: the sums of a row `sum` of conformance/README.md, over what the
//! Rust crate encodes single characters to. scripts/compare-crate builds and runs it.
use encoding_rs::Encoding;
use peer::sums::sums_of;

const NAMES: [&str; 40] = [
    "UTF-8", "IBM866", "ISO-8859-2", "ISO-8859-3", "ISO-8859-4", "ISO-8859-5", "ISO-8859-6", "ISO-8859-7",
    "ISO-8859-8", "ISO-8859-8-I", "ISO-8859-10", "ISO-8859-13", "ISO-8859-14", "ISO-8859-15", "ISO-8859-16",
    "KOI8-R", "KOI8-U", "macintosh", "windows-874", "windows-1250", "windows-1251", "windows-1252", "windows-1253",
    "windows-1254", "windows-1255", "windows-1256", "windows-1257", "windows-1258", "x-mac-cyrillic", "GBK",
    "gb18030", "Big5", "EUC-JP", "ISO-2022-JP", "Shift_JIS", "EUC-KR", "replacement", "UTF-16BE", "UTF-16LE",
    "x-user-defined",
];

fn main() {
    for name in NAMES {
        let encoding = Encoding::for_label(name.as_bytes()).expect("a name is a label");
        let (reported, replaced) = sums_of(encoding);
        println!("{name} {reported:016X} {replaced:016X}");
    }
}

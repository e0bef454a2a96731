"""Tests of codecs, error handlers, chunks and files. The texts are those of the standard, by hand."""

import codecs
import io
import unittest

import encoding_rs
from encoding_rs import lookup


class Codecs(unittest.TestCase):
    def test_every_label_is_a_codec(self):
        for label, name in encoding_rs.webencodings.LABELS.items():
            self.assertEqual(lookup(label).name, name)
            self.assertIs(codecs.lookup(f"whatwg-{label}"), lookup(label).codec_info)

    def test_unknown_labels(self):
        self.assertIsNone(lookup("utf-7"))
        self.assertIsNone(lookup("utf-8\0"))
        self.assertIsNone(lookup("a" * 2**20))
        self.assertIsNone(lookup("\ud800"))
        with self.assertRaises(LookupError):
            codecs.lookup("whatwg-utf-7")
        with self.assertRaises(LookupError):
            encoding_rs.decode(b"", "utf-7")

    def test_decodes(self):
        self.assertEqual(b"\x93\xfa\x96\x7b".decode("whatwg-shift_jis"), "日本")
        self.assertEqual(b"\xf0\x9f\x92\xa9".decode("whatwg-utf-8"), "\U0001F4A9")
        self.assertEqual(b"\xff\xfea\0".decode("whatwg-gbk"), "a")
        self.assertEqual(b"".decode("whatwg-gbk"), "")
        self.assertEqual(bytes(range(0x80, 0xA0)).decode("whatwg-x-user-defined"), "".join(map(chr, range(0xF780, 0xF7A0))))
        self.assertEqual(memoryview(b"ab").tobytes().decode("whatwg-latin1"), "ab")

    def test_handlers_of_malformed_sequences(self):
        data = b"a\xe3\x81\xffb\xe3\x81"
        self.assertEqual(data.decode("whatwg-utf-8", "replace"), "a\ufffd\ufffdb\ufffd")
        self.assertEqual(data.decode("whatwg-utf-8", "ignore"), "ab")
        self.assertEqual(data.decode("whatwg-utf-8", "backslashreplace"), r"a\xe3\x81\xffb\xe3\x81")
        self.assertEqual(data.decode("whatwg-utf-8", "surrogateescape"), data.decode("utf-8", "surrogateescape"))
        with self.assertRaises(UnicodeDecodeError) as caught:
            data.decode("whatwg-utf-8")
        self.assertEqual((caught.exception.start, caught.exception.end), (1, 3))
        self.assertEqual(caught.exception.object, data)

    def test_a_handler_that_goes_on_elsewhere(self):
        codecs.register_error("skip-three", lambda error: ("?", min(error.start + 3, len(error.object))))
        self.assertEqual(b"a\xff12b".decode("whatwg-utf-8", "skip-three"), "a?b")

    def test_chunks(self):
        data = "日本語のテキスト、\U00020089".encode("euc_jis_2004", "ignore") + b"\x8f\xff"
        for label in ("shift_jis", "euc-jp", "gb18030", "iso-2022-jp", "utf-16le", "windows-1252"):
            whole = data.decode(f"whatwg-{label}", "replace")
            for size in (1, 2, 3, 5):
                decoder = codecs.getincrementaldecoder(f"whatwg-{label}")("replace")
                parts = [decoder.decode(data[at:at + size]) for at in range(0, len(data), size)]
                self.assertEqual("".join(parts) + decoder.decode(b"", True), whole)

    def test_a_sequence_that_began_in_the_chunk_before(self):
        decoder = codecs.getincrementaldecoder("whatwg-utf-8")()
        self.assertEqual(decoder.decode(b"ab\xe3\x81"), "ab")
        with self.assertRaises(UnicodeDecodeError) as caught:
            decoder.decode(b"c")
        error = caught.exception
        self.assertEqual(error.object[error.start:error.end], b"\xe3\x81")

    def test_encodes(self):
        self.assertEqual("日本".encode("whatwg-iso-2022-jp"), b"\x1b$BF|K\\\x1b(B")
        self.assertEqual("é\U0001F4A9".encode("whatwg-utf-16le"), "é\U0001F4A9".encode())
        self.assertEqual("ab".encode("whatwg-gbk"), b"ab")
        self.assertEqual("".encode("whatwg-big5"), b"")

    def test_handlers_of_unmappable_characters(self):
        text = "aé\U0001F4A9b"
        self.assertEqual(text.encode("whatwg-koi8-u", "xmlcharrefreplace"), b"a&#233;&#128169;b")
        self.assertEqual(text.encode("whatwg-koi8-u", "replace"), b"a??b")
        self.assertEqual(text.encode("whatwg-koi8-u", "ignore"), b"ab")
        self.assertEqual(text.encode("whatwg-koi8-u", "backslashreplace"), rb"a\xe9\U0001f4a9b")
        with self.assertRaises(UnicodeEncodeError) as caught:
            text.encode("whatwg-koi8-u")
        self.assertEqual((caught.exception.start, caught.exception.end), (1, 2))
        with self.assertRaises(UnicodeEncodeError) as caught:
            "a\ud800".encode("whatwg-utf-8")
        self.assertEqual(caught.exception.start, 1)
        self.assertEqual("a\ud800b".encode("whatwg-utf-8", "ignore"), b"ab")
        self.assertEqual("日é".encode("whatwg-iso-2022-jp", "xmlcharrefreplace"), b"\x1b$BF|\x1b(B&#233;")

    def test_text_in_chunks(self):
        encoder = codecs.getincrementalencoder("whatwg-iso-2022-jp")()
        parts = [encoder.encode(it) for it in "日本"] + [encoder.encode("", True)]
        self.assertEqual(b"".join(parts), "日本".encode("whatwg-iso-2022-jp"))
        encoder.encode("日")
        state = encoder.getstate()
        encoder.reset()
        encoder.setstate(state)
        self.assertEqual(encoder.encode("本", True), b"K\\\x1b(B")

    def test_files(self):
        raw = io.BytesIO()
        with io.TextIOWrapper(raw, "whatwg-shift_jis", newline="") as file:
            file.write("日本\n" * 5000)
            file.flush()
            data = raw.getvalue()
        self.assertEqual(len(data), 25000)
        with io.TextIOWrapper(io.BytesIO(data), "whatwg-sjis") as file:
            self.assertEqual(file.read(3), "日本\n")
            self.assertEqual(sum(1 for _ in file), 4999)
        with io.TextIOWrapper(io.BytesIO(data), "whatwg-sjis", newline="") as file:
            file.read(4)
            place, rest = file.tell(), file.read()
            file.seek(place)
            self.assertEqual(file.read(), rest)
            file.seek(0)
            self.assertEqual(file.read(2), "日本")
        reader = codecs.getreader("whatwg-sjis")(io.BytesIO(data))
        self.assertEqual(reader.read(), "日本\n" * 5000)


if __name__ == "__main__":
    unittest.main()

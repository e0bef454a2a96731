"""The sections and terms of the WHATWG Encoding Standard that comments name, with links to them."""

import html
import re

ADDRESS = "https://encoding.spec.whatwg.org/"

# The anchor of each section, by its number.
SECTIONS = {
    "4": "encodings", "4.1": "encoders-and-decoders", "4.2": "names-and-labels", "4.3": "output-encodings",
    "5": "indexes", "6": "specification-hooks", "7": "api",
    "8": "the-encoding", "8.1": "utf-8", "8.1.1": "utf-8-decoder", "8.1.2": "utf-8-encoder",
    "9": "legacy-single-byte-encodings", "9.1": "single-byte-decoder", "9.2": "single-byte-encoder",
    "10": "legacy-multi-byte-chinese-(simplified)-encodings",
    "10.1": "gbk", "10.1.1": "gbk-decoder", "10.1.2": "gbk-encoder",
    "10.2": "gb18030", "10.2.1": "gb18030-decoder", "10.2.2": "gb18030-encoder",
    "11": "legacy-multi-byte-chinese-(traditional)-encodings",
    "11.1": "big5", "11.1.1": "big5-decoder", "11.1.2": "big5-encoder",
    "12": "legacy-multi-byte-japanese-encodings",
    "12.1": "euc-jp", "12.1.1": "euc-jp-decoder", "12.1.2": "euc-jp-encoder",
    "12.2": "iso-2022-jp", "12.2.1": "iso-2022-jp-decoder", "12.2.2": "iso-2022-jp-encoder",
    "12.3": "shift_jis", "12.3.1": "shift_jis-decoder", "12.3.2": "shift_jis-encoder",
    "13": "legacy-multi-byte-korean-encodings",
    "13.1": "euc-kr", "13.1.1": "euc-kr-decoder", "13.1.2": "euc-kr-encoder",
    "14": "legacy-miscellaneous-encodings", "14.1": "replacement", "14.1.1": "replacement-decoder",
    "14.2": "common-infrastructure-for-utf-16be-and-utf-16le", "14.2.1": "shared-utf-16-decoder",
    "14.3": "utf-16be", "14.3.1": "utf-16be-decoder", "14.4": "utf-16le", "14.4.1": "utf-16le-decoder",
    "14.5": "x-user-defined", "14.5.1": "x-user-defined-decoder", "14.5.2": "x-user-defined-encoder",
}
# The anchor of each term that comments quote.
TERMS = {
    "decode": "decode", "encode": "encode", "UTF-8 decode": "utf-8-decode",
    "UTF-8 decode without BOM": "utf-8-decode-without-bom",
    "UTF-8 decode without BOM or fail": "utf-8-decode-without-bom-or-fail", "BOM sniff": "bom-sniff",
    "get an encoding": "concept-encoding-get", "get an output encoding": "get-an-output-encoding",
    "process a queue": "concept-encoding-run", "process an item": "concept-encoding-process",
    "error mode": "error-mode", "get an encoder": "get-an-encoder",
    "index code point": "index-code-point", "index pointer": "index-pointer",
    "index single-byte": "index-single-byte", "index ISO-2022-JP katakana": "index-iso-2022-jp-katakana",
    "index gb18030 ranges code point": "index-gb18030-ranges-code-point",
    "index gb18030 ranges pointer": "index-gb18030-ranges-pointer",
    "index Shift_JIS pointer": "index-shift_jis-pointer", "index Big5 pointer": "index-big5-pointer",
    "UTF-8 decoder": "utf-8-decoder", "UTF-8 encoder": "utf-8-encoder",
}

# What speaks of the standard, up to what speaks of another, and in it a number or a quoted term.
PASSAGE = re.compile(r"Encoding\s+Standard(?:(?!Unicode|\n\n)[^()])*")
PLACE = re.compile(r"(?<=[\s;,(])(\d+(?:\.\d+)*)(?=[\s,;.:)\"]|$)|\"([^\"]+)\"")
NUMBER = re.compile(r"Standard(?:'s)?[\s(]*\Z|[;,]\s*\Z|(?:\bto|\band)\s+\Z")


def anchor_of(match, passage):
    number, term = match.groups()
    if number:
        follows = NUMBER.search(passage[: match.start()])
        return SECTIONS.get(number) if follows else None
    words = " ".join(term.split())
    return TERMS.get(words) or TERMS.get(words[0].lower() + words[1:])


class Standard:
    """Links to the standard. It counts them, and notes the sections that the tables lack."""

    def __init__(self):
        self.links, self.unknown = 0, set()

    def linked(self, text):
        """A text, of HTML or Markdown, in which what is named of the standard is a link."""
        return PASSAGE.sub(lambda passage: self.linked_passage(passage[0]), text)

    def linked_passage(self, passage):
        def link(match):
            anchor = anchor_of(match, passage)
            if not anchor:
                if match[1] and NUMBER.search(passage[: match.start()]):
                    self.unknown.add(match[1])
                return match[0]
            self.links += 1
            return f'<a class="standard" href="{html.escape(ADDRESS)}#{anchor}">{match[0]}</a>'
        return PLACE.sub(link, passage)

"""Rows of conformance over Python's incremental codecs. For scripts/over.py."""

import codecs
from typing import NamedTuple

HANDLER = "rows-of-conformance"
# The codec that stands for each encoding: that over which most rows hold. x-user-defined and replacement have none.
CODECS = {
    "UTF-8": "utf_8", "UTF-16BE": "utf_16_be", "UTF-16LE": "utf_16_le", "GBK": "gb18030", "gb18030": "gb18030",
    "Big5": "big5hkscs", "EUC-JP": "euc_jp", "ISO-2022-JP": "iso2022_jp_ext", "Shift_JIS": "cp932", "EUC-KR": "cp949",
    "IBM866": "cp866", "ISO-8859-8-I": "iso8859_8", "KOI8-R": "koi8_r", "KOI8-U": "koi8_u", "macintosh": "mac_roman",
    "windows-874": "cp874", "x-mac-cyrillic": "mac_cyrillic",
    **{f"ISO-8859-{it}": f"iso8859_{it}" for it in (2, 3, 4, 5, 6, 7, 8, 10, 13, 14, 15, 16)},
    **{f"windows-{it}": f"cp{it}" for it in range(1250, 1259)},
}
# What answers each kind of rows.
ROWS = {"text": "text", "long": "text", "whole": "whole", "among": "among", "repeat": "repeat", "bytes": "bytes"}
UTF = ("UTF-8", "UTF-16BE", "UTF-16LE")


class Faults:
    """The malformed sequences of a decoder, or the unmappable characters of an encoder, in order."""

    def __init__(self):
        self.begin()
        codecs.register_error(HANDLER, self.handle)

    def begin(self):
        self.places, self.fed = [], 0

    def handle(self, error):
        """Notes what is at fault, and replaces it. What a decoder holds comes before the chunk in the error."""
        self.places.append((self.fed - len(error.object) + error.start, error.end - error.start))
        if isinstance(error, UnicodeDecodeError):
            return "\ufffd", error.end
        return "".join(f"&#{ord(it)};" for it in error.object[error.start:error.end]), error.end


class Section(NamedTuple):
    """What the rows after a head are of."""
    decodes: bool
    names: list
    marks: str
    barring: bool


def cuts_of(src):
    """The chunks of an input, each with how it is cut."""
    yield "no", [src]
    yield "each(1)", [src[at:at + 1] for at in range(len(src))] or [src]
    for place in range(len(src) + 1):
        yield f"at({place})", [src[:place], src[place:]]


def places_of(word):
    return [tuple(map(int, it.split("+"))) for it in word.split(",")] if word != "-" else []


def shown(**given):
    """An answer that a row does not hold."""
    def word(value):
        if isinstance(value, (str, bytes)):
            return (value.encode("utf-8", "surrogatepass") if isinstance(value, str) else value).hex().upper() or "-"
        return ",".join(f"{at}+{length}" for at, length in value) or "-"

    hexadecimal = ("text", "bytes", "malformed")
    return "fails " + " ".join(f"{name}={word(it) if name in hexadecimal else it}" for name, it in given.items())


class Rows:
    """Answers lines of rows, by the output encodings of all."""

    def __init__(self, outputs):
        self.outputs = outputs
        self.faults = Faults()
        self.section = None

    def answers(self, lines):
        return [self.answer(*it.split(" ")) for it in lines]

    def answer(self, name, *words):
        if name in ("decoder", "encoder"):
            barring = name == "encoder" and words[3] != "-"
            self.section = Section(name == "decoder", words[0].split(","), words[1], barring)
            return "holds"
        if name not in ROWS or not self.section or self.section.barring:
            return "skip"
        codec_of = {it: codec for it in self.section.names if (codec := self.codec(it))}
        found = [getattr(self, ROWS[name])(of, codec, *words) for of, codec in codec_of.items()]
        return next((it for it in found if it != "holds"), "holds" if found else "skip")

    def codec(self, name):
        """The codec of an encoding, or none. `remove` is that of a byte order mark of UTF-8 or UTF-16."""
        if not self.section.decodes:
            return CODECS.get(self.outputs[name])
        if self.section.marks == "off" or (self.section.marks == "remove" and name not in UTF):
            return CODECS.get(name)
        return "utf_8_sig" if (self.section.marks, name) == ("remove", "UTF-8") else None

    def decoded(self, codec, chunks):
        """The text of chunks, and its malformed sequences."""
        decoder, text = codecs.getincrementaldecoder(codec)(HANDLER), ""
        self.faults.begin()
        for number, chunk in enumerate(chunks, 1):
            self.faults.fed += len(chunk)
            text += decoder.decode(chunk, number == len(chunks))
        return text, self.faults.places

    def encoded(self, codec, chunks):
        """The bytes of chunks, and whether a character is unmappable."""
        encoder = codecs.getincrementalencoder(codec)(HANDLER)
        self.faults.begin()
        made = b"".join(encoder.encode(it, number == len(chunks)) for number, it in enumerate(chunks, 1))
        return made, bool(self.faults.places)

    def compare(self, of, codec, src, cuts, wanted):
        """Decodes an input with cuts. What it gives where that is wrong."""
        for cut, chunks in cuts:
            how = {"stage": "whole" if cut == "no" else "cut", "of": of, "codec": codec, "cut": cut}
            try:
                text, places = self.decoded(codec, chunks)
            except (UnicodeError, ValueError, RuntimeError, SystemError) as error:
                return shown(part="error", **how, error=type(error).__name__)
            if text != wanted[0]:
                return shown(part="text", **how, text=text, malformed=places)
            if wanted[1] is not None and places != wanted[1]:
                return shown(part="places", **how, text=text, malformed=places)
        return "holds"

    def text(self, of, codec, *words):
        if self.section.decodes:
            src, text = bytes.fromhex(words[0].strip("-")), bytes.fromhex(words[1].strip("-")).decode()
            return self.compare(of, codec, src, cuts_of(src), (text, places_of(words[2])))
        text, wanted = bytes.fromhex(words[0].strip("-")).decode(), bytes.fromhex(words[1].strip("-"))
        for cut, chunks in cuts_of(text):
            made, _ = self.encoded(codec, chunks)
            if made != wanted:
                stage = "whole" if cut == "no" else "cut"
                return shown(part="bytes", stage=stage, of=of, codec=codec, cut=cut, bytes=made)
        return "holds"

    def whole(self, of, codec, *words):
        """The text or the bytes of the whole, and whether something was at fault."""
        front, back = (bytes.fromhex(it.strip("-")) for it in words[:2])
        flag, how = words[3] == "yes", {"stage": "whole", "of": of, "codec": codec}
        if self.section.decodes:
            text, places = self.decoded(codec, [front])
            is_right = text == back.decode() and bool(places) == flag
            return "holds" if is_right else shown(part="text", **how, text=text, malformed=places)
        made, is_unmappable = self.encoded(codec, [front.decode()])
        return "holds" if (made, is_unmappable) == (back, flag) else shown(part="bytes", **how, bytes=made)

    def among(self, of, codec, *words):
        letter, middle, text = (bytes.fromhex(it.strip("-")) for it in words[:3])
        letters = (40 - len(middle)) // len(letter)
        for front in range(letters + 1):
            src = letter * front + middle + letter * (letters - front)
            whole = "a" * front + text.decode() + "a" * (letters - front)
            places = [(at + front * len(letter), length) for at, length in places_of(words[3])]
            cuts = [("no", [src]), ("each(1)", [src[at:at + 1] for at in range(len(src))])]
            answer = self.compare(of, codec, src, cuts, (whole, places))
            if answer != "holds":
                return answer
        return "holds"

    def repeat(self, of, codec, *words):
        src, text, middle, of_middle = (bytes.fromhex(it.strip("-")) for it in words[1:5])
        src, text = src * int(words[0]), text.decode() * int(words[0])
        if middle:
            src, text = src + middle + src, text + of_middle.decode() + text
        cuts = [("no", [src]), ("each(997)", [src[at:at + 997] for at in range(0, len(src), 997)] or [src])]
        return self.compare(of, codec, src, cuts, (text, None))

    def bytes(self, of, codec, *words):
        first, text = int(words[0]), bytes.fromhex(words[1].strip("-")).decode()
        made = "".join(self.decoded(codec, [bytes([first + at])])[0] for at in range(len(text)))
        return "holds" if made == text else shown(part="text", stage="bytes", of=of, codec=codec, text=made)

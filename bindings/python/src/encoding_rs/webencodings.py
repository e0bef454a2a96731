"""The interface of the package webencodings 0.5.1, by the decoders and encoders of the standard.

A package that imports webencodings takes this in its place by `sys.modules["webencodings"] = encoding_rs.webencodings`.
Where the two differ, this follows the Encoding Standard: docs/DIFFERENCES.md has each place.
"""

import codecs

from . import _calls
from ._codec import NONE, IncrementalDecoder as _Decoder, IncrementalEncoder as _Encoder, codec_info as _codec_info
from ._names import LABELS, NAMES

VERSION = "0.5.1"
_NONE = 255
_CACHE = {}


def ascii_lower(string):
    """Returns a string with A to Z in lower case."""
    return string.encode("utf8", "surrogatepass").lower().decode("utf8", "surrogatepass")


class Encoding:
    """An encoding: its name, in lower case, and its codec."""

    def __init__(self, name, codec_info):
        self.name, self.codec_info = name, codec_info

    def __repr__(self):
        return f"<Encoding {self.name}>"


def lookup(label):
    """Returns the encoding that a label names (Encoding Standard 4.2, "get an encoding"), or None."""
    number = _calls.for_label(label.encode("utf8", "surrogatepass"))
    if number == _NONE:
        return None
    if number not in _CACHE:
        _CACHE[number] = Encoding(NAMES[number].lower(), _codec_info(number))
        _CACHE[number].number = number
    return _CACHE[number]


def _get_encoding(encoding_or_label):
    if hasattr(encoding_or_label, "codec_info"):
        return encoding_or_label
    encoding = lookup(encoding_or_label)
    if encoding is None:
        raise LookupError(f"Unknown encoding label: {encoding_or_label!r}")
    return encoding


UTF8 = lookup("utf-8")


class IncrementalDecoder:
    """Decodes bytes in chunks. `encoding` is None until the first bytes tell whether there is a byte order mark."""

    def __init__(self, fallback_encoding, errors="replace"):
        self._fallback = _get_encoding(fallback_encoding)
        self._decoder = _Decoder(errors, self._fallback.number)
        self._given = b""
        self.encoding = None

    def decode(self, input, final=False):
        """Returns the text that the bytes so far determine."""
        text = self._decoder.decode(input, final)
        if self.encoding is None:
            self._given = (self._given + bytes(input[:3]))[:3]
            if text or final or len(self._given) == 3:
                self.encoding = self._found(final)
        return text

    def _found(self, final):
        for mark, label in ((codecs.BOM_UTF8, "utf-8"), (codecs.BOM_UTF16_BE, "utf-16be"), (codecs.BOM_UTF16_LE, "utf-16le")):
            if self._given.startswith(mark):
                return lookup(label)
        return self._fallback


class IncrementalEncoder:
    """Encodes text in chunks."""

    def __init__(self, encoding=UTF8, errors="strict"):
        self.encode = _Encoder(errors, _get_encoding(encoding).number).encode


def decode(input, fallback_encoding, errors="replace"):
    """Returns the text of bytes, and the encoding by which they are decoded: that of their byte order mark, or this."""
    decoder = IncrementalDecoder(fallback_encoding, errors)
    text = decoder.decode(input, final=True)
    return text, decoder.encoding


def encode(input, encoding=UTF8, errors="strict"):
    """Returns the bytes of a text, in the output encoding."""
    return _get_encoding(encoding).codec_info.encode(input, errors)[0]


def iter_decode(input, fallback_encoding, errors="replace"):
    """Returns an iterator over the texts of chunks, and the encoding: the first chunks are read for it."""
    decoder = IncrementalDecoder(fallback_encoding, errors)
    chunks = iter(input)
    first = ""
    for chunk in chunks:
        first = decoder.decode(chunk)
        if decoder.encoding is not None:
            break
    else:
        first = decoder.decode(b"", final=True)

    def texts():
        if first:
            yield first
        for chunk in chunks:
            if text := decoder.decode(chunk):
                yield text
        if decoder.encoding is not None and (text := decoder.decode(b"", final=True)):
            yield text

    return texts(), decoder.encoding


def iter_encode(input, encoding=UTF8, errors="strict"):
    """Returns an iterator over the bytes of texts."""
    encode = IncrementalEncoder(encoding, errors).encode

    def parts():
        for text in input:
            if part := encode(text):
                yield part
        if part := encode("", final=True):
            yield part

    return parts()

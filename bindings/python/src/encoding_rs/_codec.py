"""Codecs of Python, over the decoders and encoders of `_calls`."""

import codecs
import functools

from . import _calls
from ._names import BY_CODEC_NAME, NAMES

# The prefix of a label in the name of a codec.
PREFIX = "whatwg-"
# The byte order marks that a decoder looks for.
ALL, OWN, NONE = range(3)
# The states of decoders that Python has asked for, by number: it wants an integer, and keeps it in the places of a file.
STATES, NUMBERS = [None], {}
# A malformed sequence begins at most so many bytes before the input of the call that reports it.
KEPT = 8


class IncrementalDecoder(codecs.IncrementalDecoder):
    """Decodes bytes in chunks. A byte order mark sets the encoding and is dropped, unless `marks` says otherwise."""

    def __init__(self, errors="strict", number=0, marks=ALL):
        super().__init__(errors)
        self.number, self.marks = number, marks
        self.reset()

    @property
    def encoding(self):
        """The name of the encoding that is decoded, which a byte order mark may change."""
        return NAMES[self._decoder.encoding]

    def reset(self):
        self._decoder, self._before = _calls.Decoder(self.number, self.marks), b""

    def getstate(self):
        key = self._decoder.state
        if key == _calls.Decoder(self.number, self.marks).state:
            return b"", 0
        if key not in NUMBERS:
            STATES.append(self._decoder.copy())
            NUMBERS[key] = len(STATES) - 1
        return b"", NUMBERS[key]

    def setstate(self, state):
        unread, number = state
        self.reset()
        if number:
            self._decoder = STATES[number].copy()
        if unread:
            self.decode(unread)

    def decode(self, input, final=False):
        data, texts, at = bytes(input), [], 0
        replaces = self.errors == "replace"
        while True:
            text, at, length, after = self._decoder.decode(data, at, final, replaces)
            texts.append(text)
            if not length:
                break
            end = at - after
            text, place = self._handle(data, end - length, end)
            texts.append(text)
            if place != end:
                # the handler goes on elsewhere: what is there begins a text
                self._decoder, at = _calls.Decoder(self._decoder.encoding, NONE), max(place, 0)
        self._before = (self._before + data)[-KEPT:]
        if final:
            self.reset()
        return "".join(texts)

    def _handle(self, data, begin, end):
        """The text of an error handler for a malformed sequence, and the place in the data where it
        goes on."""
        before = len(self._before)
        error = UnicodeDecodeError(self.encoding, self._before + data, begin + before, end + before, "malformed sequence")
        text, place = codecs.lookup_error(self.errors)(error)
        if place < 0:
            place += before + len(data)
        return text, place - before


class IncrementalEncoder(codecs.IncrementalEncoder):
    """Encodes text in chunks, in the output encoding."""

    def __init__(self, errors="strict", number=0):
        super().__init__(errors)
        self.number = number
        self.reset()

    def reset(self):
        self._encoder = _calls.Encoder(self.number)

    def getstate(self):
        return int(self._encoder.is_pending)

    def setstate(self, state):
        self.reset()
        if state:
            # (only ISO-2022-JP has a state: that its set of two bytes is designated)
            self._encoder.encode("\u3042", 0, False)

    def encode(self, input, final=False):
        parts, at = [], 0
        while True:
            part, at, character = self._encoder.encode(input, at, final)
            parts.append(part)
            if character < 0:
                return b"".join(parts)
            text, at = self._handle(input, at - 1, at)
            parts.append(text if isinstance(text, bytes) else self._encode_text(text, input, at - 1))

    def _handle(self, text, begin, end):
        """The result of an error handler for a character, and the place in the text where it goes on."""
        name = NAMES[_calls.output_encoding(self.number)]
        error = UnicodeEncodeError(name, text, begin, end, "unmappable character")
        given, place = codecs.lookup_error(self.errors)(error)
        place = place + len(text) if place < 0 else place
        if not 0 <= place <= len(text):
            raise IndexError(f"position {place} from error handler out of bounds")
        return given, place

    def _encode_text(self, given, text, begin):
        """The bytes of the text that a handler gives, which must be mappable."""
        part, read, character = self._encoder.encode(given, 0, False)
        if character >= 0:
            name = NAMES[_calls.output_encoding(self.number)]
            raise UnicodeEncodeError(name, text, begin, begin + 1, "unmappable character")
        return part


class StreamReader(codecs.StreamReader):
    """Reads text from a stream of bytes."""

    _number = 0

    def __init__(self, stream, errors="strict"):
        super().__init__(stream, errors)
        self._decoder = IncrementalDecoder(errors, self._number)

    def decode(self, input, errors="strict"):
        return self._decoder.decode(input), len(input)

    def reset(self):
        super().reset()
        self._decoder.reset()


class StreamWriter(codecs.StreamWriter):
    """Writes text to a stream of bytes."""

    _number = 0

    def __init__(self, stream, errors="strict"):
        super().__init__(stream, errors)
        self._encoder = IncrementalEncoder(errors, self._number)

    def encode(self, input, errors="strict"):
        return self._encoder.encode(input), len(input)

    def reset(self):
        super().reset()
        if hasattr(self, "_encoder"):
            self.stream.write(self._encoder.encode("", True))


@functools.cache
def codec_info(number):
    """The codec of an encoding."""

    def encode(input, errors="strict"):
        return IncrementalEncoder(errors, number).encode(input, True), len(input)

    def decode(input, errors="strict"):
        return IncrementalDecoder(errors, number).decode(input, True), len(input)

    def incremental_decoder(errors="strict"):
        return IncrementalDecoder(errors, number)

    def incremental_encoder(errors="strict"):
        return IncrementalEncoder(errors, number)

    reader = type("StreamReader", (StreamReader,), {"_number": number})
    writer = type("StreamWriter", (StreamWriter,), {"_number": number})
    return codecs.CodecInfo(
        encode, decode, reader, writer, incremental_encoder, incremental_decoder, PREFIX + NAMES[number])


def search(name):
    """The codec of a name, for codecs.register. Python passes it in lower case, with `_` for other signs."""
    prefix = PREFIX.replace("-", "_")
    number = BY_CODEC_NAME.get(name.replace("-", "_").removeprefix(prefix)) if name.replace("-", "_").startswith(prefix) else None
    return None if number is None else codec_info(number)

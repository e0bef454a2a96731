"""Real text in each encoding that scripts/bench measures, made of what Debian packages.

There are two kinds. Running text is Debian's installation guide in its languages, and the Debian Reference in
traditional Chinese, line by line in order. Short strings are the translations of message catalogs and the lines of
manual pages, shuffled. A corpus has the lines of the text that its encoding has, again and again up to its size. The
packages are bookworm's; scripts/unpacked fetches them.
"""

import gettext
import glob
import gzip
import os
import random
import re

import programs

RELEASE = "bookworm"

GUIDE = "installation-guide-amd64"
REFERENCE = "debian-reference-zh-tw"

# Where message catalogs and manual pages are from.
CATALOGS = ["coreutils", "dpkg", "apt", "bash", "tar", "util-linux-locales", "gnupg-l10n", "aptitude-common"]
MANUALS = {
    "en": "manpages", "fr": "manpages-fr", "ru": "manpages-ru", "ja": "manpages-ja",
    "zh_CN": "manpages-zh", "zh_TW": "manpages-zh",
}
RUNNING = "running text"
SHORT = "short strings"

# Characters on which converters disagree, so that none is left out of a row for one character: dashes, waves and signs for
# which JIS X 0208, Big5 and Unicode's tables for them each have another.
APART = re.compile("[〜～−－•／＼∥‖∕·・—―…⋯¢£¬￠￡￢¥‾]")

# A line that has characters of four bytes in UTF-8, for the mixed corpora.
PICTURES = "A row of pictures: 🐈 🐕 🌍 🎼 𝄞 𠀋.\n"

# The seed and the size of the random bytes, in MiB.
SEED = 1
RANDOM_MIB = 4

# The size of each text that is encoded, in MiB: the crate encodes Chinese at 15 MB/s.
ENCODED_MIB = 16


class Corpus:
    """A text that is measured, its label, and the names that iconv and uconv have for its encoding.

    `way` is "decode", from the encoding to UTF-8; "to-units", from it to UTF-16LE; "encode", from UTF-8 to it; or
    "from-units", from UTF-16LE to it. `text` names the text in the form in which it is read.
    """

    def __init__(self, title, languages, label, codec, iconv=None, uconv=None, kind=RUNNING, way="decode"):
        self.title = f"{title}, {kind}" if languages else title
        self.languages = languages
        self.label = label
        self.codec = codec
        self.iconv = iconv
        self.uconv = uconv
        self.kind = kind
        self.way = way
        self.is_decoded = way in ("decode", "to-units")
        self.name = slug(f"{way} {self.title}")
        self.text = slug(f"decode {self.title}") if self.is_decoded else self.name

    def ends(self, label):
        """The labels from and to which it is recoded, by a program with this label for its encoding."""
        return ("utf-8", label) if self.way == "encode" else (label, "utf-8")


def slug(title):
    """The title in lowercase, with a hyphen for each run of characters but letters and digits."""
    return re.sub("[^a-z0-9]+", "-", title.lower()).strip("-")


ALL = ["en", "fr", "ru", "ja", "zh_CN", "ko", "el", "zh_TW"]
# title, languages, label, Python's codec, and the names that iconv and uconv have
UNICODE = [
    ("ASCII, English", ["en"], "utf-8", "ascii", "utf-8", "utf-8"),
    ("UTF-8, eight languages", ALL, "utf-8", "utf-8", "utf-8", "utf-8"),
    ("UTF-8, Russian", ["ru"], "utf-8", "utf-8", "utf-8", "utf-8"),
    ("UTF-16LE, eight languages", ALL, "utf-16le", "utf-16-le", "utf-16le", "utf-16le"),
]
LEGACY = [
    ("windows-1252, French", ["fr"], "windows-1252", "cp1252", "windows-1252", "windows-1252"),
    ("windows-1251, Russian", ["ru"], "windows-1251", "cp1251", "windows-1251", "windows-1251"),
    ("Shift_JIS, Japanese", ["ja"], "shift_jis", "cp932", "cp932", "windows-31j"),
    ("EUC-JP, Japanese", ["ja"], "euc-jp", "euc_jp", "euc-jp", "euc-jp"),
    ("ISO-2022-JP, Japanese", ["ja"], "iso-2022-jp", "iso2022_jp", "iso-2022-jp", "iso-2022-jp"),
    ("gb18030, Chinese", ["zh_CN"], "gb18030", "gb18030", "gb18030", "gb18030"),
    ("Big5, Chinese", ["zh_TW"], "big5", "big5", "big5-hkscs", "big5-hkscs"),
    ("EUC-KR, Korean", ["ko"], "euc-kr", "cp949", "cp949", "windows-949"),
]
# Text that is Latin-1 byte by byte. In windows-1252, lines with no byte from 80 to 9F.
LATIN1 = [
    ("UTF-8, ASCII", ["en"], "utf-8", "ascii"),
    ("windows-1252, ASCII", ["en"], "windows-1252", "ascii"),
    ("windows-1252, French in Latin-1", ["fr"], "windows-1252", "latin-1"),
]
# GBK decodes as gb18030 does.
WRITTEN = LEGACY[:5] + [("GBK, Chinese", ["zh_CN"], "gbk", "gbk", "gbk", "gbk")] + LEGACY[5:]
KINDS = [RUNNING, SHORT]
# Random bytes are decoded as these. Most of them are malformed.
HOSTILE = ["UTF-8", "UTF-16LE", "windows-1252", "Shift_JIS", "EUC-JP", "ISO-2022-JP", "gb18030", "Big5", "EUC-KR"]

CORPORA = [Corpus(*row, kind=kind) for kind in KINDS for row in UNICODE + LEGACY]
CORPORA += [Corpus(f"random bytes as {label}", [], label, None) for label in HOSTILE]
CORPORA += [Corpus(*row, kind=kind, way="to-units") for kind in KINDS for row in UNICODE + LEGACY]
# Of one code unit a character, since the end of a read would split a pair of surrogates.
CORPORA += [Corpus(*row, kind=kind, way="from-units") for kind in KINDS for row in (UNICODE[0], UNICODE[2])]
for way in ("encode", "from-units"):
    CORPORA += [Corpus(*row, kind=kind, way=way) for kind in KINDS for row in WRITTEN]
    CORPORA += [
        Corpus(f"{row[0].split(',')[0]}, ASCII", ["en"], row[2], "ascii", *row[4:], way=way) for row in WRITTEN
    ]


def unpacked(package):
    """The folder of a package of texts."""
    [folder] = programs.unpacked(RELEASE, package)
    return folder


def sources():
    """The packages that the texts come from, with their versions."""
    names = [GUIDE, REFERENCE, *CATALOGS, *sorted(set(MANUALS.values()))]
    return ", ".join(f"{name} {programs.field(unpacked(name), 'Version')}" for name in names)


def running_lines(language):
    """The lines of a language that are not empty. Of the Reference, which has much English, those in Chinese."""
    if language == "zh_TW":
        path = f"{unpacked(REFERENCE)}/usr/share/debian-reference/debian-reference.zh-tw.txt.gz"
    else:
        path = f"{unpacked(GUIDE)}/usr/share/doc/{GUIDE}/{language}/install.{language}.txt.gz"
    with gzip.open(path, "rt", encoding="koi8-r" if language == "ru" else "utf-8") as file:
        return [line for line in file if line.strip() and not (language == "zh_TW" and line.isascii())]


def messages(folder, language):
    """The translations of the catalogs of a package."""
    for path in sorted(glob.glob(f"{folder}/usr/share/locale/{language}/LC_MESSAGES/*.mo")):
        with open(path, "rb") as file:
            for text in gettext.GNUTranslations(file)._catalog.values():
                yield from text.split("\n")


def manual_lines(folder, language):
    """The lines of manual pages, without requests and font changes."""
    part = "" if language == "en" else f"{language}*/"
    for path in sorted(glob.glob(f"{folder}/usr/share/man/{part}man*/*.gz")):
        with gzip.open(path, "rt", encoding="utf-8", errors="ignore") as file:
            for line in file:
                if line[0] not in ".'":
                    yield re.sub(r"\\f.|\\\(..|\\[&|]", "", line).replace("\\-", "-")


def short_lines(language):
    """Messages and manual lines, each once, shuffled. But in English and French a quarter of a line is beyond ASCII."""
    found = {line for package in CATALOGS for line in messages(unpacked(package), language)}
    if language in MANUALS:
        found.update(manual_lines(unpacked(MANUALS[language]), language))
    kept = []
    for line in sorted(text.strip() for text in found):
        if len(line) >= 12 and (language in ("en", "fr") or 4 * sum(c > "\x7F" for c in line) >= len(line)):
            kept.append(line + "\n")
    random.Random(SEED).shuffle(kept)
    return kept


def lines(language, kind):
    return running_lines(language) if kind == RUNNING else short_lines(language)


def mixed(texts):
    """A line of each language in turn, and a row of pictures after every fortieth."""
    made = []
    for number in range(max(map(len, texts))):
        made += [text[number % len(text)] for text in texts]
        if number % 5 == 4:
            made.append(PICTURES)
    return made


def encoded(line, codec):
    """The line in the encoding; nothing where it has characters that the encoding has not, or has otherwise."""
    if codec in ("cp932", "euc_jp", "iso2022_jp", "big5", "gbk") and APART.search(line):
        return b""
    try:
        line_bytes = line.encode(codec)
        return line_bytes if line_bytes.decode(codec) == line else b""
    except UnicodeError:
        return b""


def block(corpus):
    """The text of a corpus, once."""
    languages = [language for language in corpus.languages if corpus.kind == RUNNING or language != "el"]
    texts = [lines(language, corpus.kind) for language in languages]
    text = mixed(texts) if len(texts) > 1 else texts[0]
    parts = [encoded(line, corpus.codec) for line in text]
    if not corpus.is_decoded and corpus.codec == "euc_jp":
        parts = [part for part in parts if b"\x8F" not in part]  # of JIS X 0212, which is decoded alone
    made = b"".join(parts)
    if not corpus.is_decoded:
        made = made.decode(corpus.codec).encode("utf-8" if corpus.way == "encode" else "utf-16-le")
    if len(made) < 100_000:
        raise SystemExit(f"bench: too little text for {corpus.title}: {len(made)} bytes")
    return made


def path(cache, corpus, mib):
    """The file of a corpus's text, made where it isn't there: whole blocks, of that many MiB or more."""
    if not corpus.languages:
        mib = min(mib, RANDOM_MIB)
    elif not corpus.is_decoded:
        mib = min(mib, ENCODED_MIB)
    file_path = f"{cache}/{corpus.text}-{mib}"
    if not os.path.exists(file_path):
        size = mib << 20
        if corpus.languages:
            once = block(corpus)
            data = once * -(-size // len(once))
        else:
            data = random.Random(SEED).randbytes(size)
        with open(f"{file_path}.part", "wb") as file:
            file.write(data)
        os.rename(f"{file_path}.part", file_path)
    return file_path

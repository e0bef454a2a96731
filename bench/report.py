"""The tables and the pictures of the measurements of scripts/bench."""

BEGIN = "<!-- scripts/bench writes from here -->"
CALLS_BEGIN = "<!-- scripts/bench --only calls writes from here -->"
MEMORY_BEGIN = "<!-- scripts/bench --only memory writes from here -->"
INTERFACE_BEGIN = "<!-- scripts/bench --only interface writes from here -->"
END = "<!-- to here -->"

DECODING = "How many times as fast as the crate encoding_rs recode decodes"
ENCODING = "How many times as fast as the best of encoding_rs, iconv and uconv recode encodes"
PEERS = ("encoding_rs", "iconv", "uconv")

# The pictures: the name of each, its way, its title, that of its axis, and the programs that it compares with.
PICTURES = (
    ("speed", "decode", DECODING, "rate of recode / rate of encoding_rs", ("encoding_rs",)),
    ("speed-encoding", "encode", ENCODING, "rate of recode / best rate of the three", PEERS),
)

BAR = 16
LEFT = 270
WIDTH = 820
# Where the first bar begins, below the title, the names of the axes and the numbers.
FIRST = 72
STYLE = """<style>
  :root { color-scheme: light dark; }
  text { font: 12px sans-serif; fill: #1f2328; }
  .title { font-size: 14px; font-weight: 600; }
  .bar { fill: #2f6fb3; }
  .grid { stroke: #8c959f; stroke-width: 0.5; }
  .one { stroke: #c0562b; stroke-width: 1.5; }
  @media (prefers-color-scheme: dark) {
    text { fill: #e6edf3; }
    .bar { fill: #6aa9e9; }
    .one { stroke: #f0996e; }
  }
</style>"""


def markdown(heads, rows):
    """A table in Markdown, of numbers but for the first column."""
    made = ["| " + " | ".join(heads) + " |", "|---" + "|--:" * (len(heads) - 1) + "|"]
    return "\n".join(made + ["| " + " | ".join(row) + " |" for row in rows])


class Row:
    """A corpus: its way, its size in bytes, and the best time in seconds of each program that writes the same."""

    def __init__(self, title, way, size, times):
        self.title = title
        self.way = way
        self.size = size
        self.times = times

    def rate(self, program):
        """MB of input a second, or nothing."""
        return f"{self.size / self.times[program] / 1e6:.0f}" if program in self.times else ""

    def ratio(self, programs):
        """How many times as fast as the fastest of those programs recode is."""
        return min(self.times[program] for program in programs if program in self.times) / self.times["recode"]


def table(rows, programs, peers):
    """A table in Markdown: rates, and that of recode by the fastest peer and, if measured, by its own before."""
    programs = [program for program in programs if any(program in row.times for row in rows)]
    name = "encoding_rs" if len(peers) == 1 else "the fastest"
    compared = [(name, peers)] + ([("before", ("before",))] if "before" in programs else [])
    heads = ["Text", *programs] + [f"by {head}" for head, _ in compared]
    made = ["| " + " | ".join(heads) + " |", "|---" * len(heads) + "|"]
    for row in rows:
        cells = [row.title] + [row.rate(program) for program in programs]
        cells += [f"{row.ratio(names):.2f}" for _, names in compared]
        made.append("| " + " | ".join(cells) + " |")
    return "\n".join(made)


def text(circumstances, rows):
    """The circumstances of the measurement, and a table for each way with its picture."""
    parts = [circumstances]
    ways = {way: [row for row in rows if row.way == way] for way in ("decode", "encode")}
    if ways["decode"]:
        parts += ["### From each encoding to UTF-8", f"![{DECODING}, for each text](speed.svg)"]
        parts.append(table(ways["decode"], ["recode", "before", *PEERS, "cat"], ("encoding_rs",)))
        ascii_text = [row for row in ways["decode"] if "cat" in row.times and row.title.startswith("ASCII")]
        if ascii_text:
            parts.append(f"On ASCII recode has {ascii_text[0].ratio(('cat',)):.2f} times the speed of `cat`.")
    if ways["encode"]:
        parts += ["### From UTF-8 to each encoding", f"![{ENCODING}, for each text](speed-encoding.svg)"]
        parts.append(table(ways["encode"], ["recode", "before", *PEERS], PEERS))
    return "\n\n".join(parts)


def head(title, width, height, style=STYLE):
    """The start of a picture: its style, and its title."""
    return [f'<svg xmlns="http://www.w3.org/2000/svg" viewBox="0 0 {width} {height}" role="img">',
            f"<title>{title}</title>", style, f'<text class="title" x="8" y="18">{title}</text>']


def picture(title, axis, bars):
    """Horizontal bars, each with the name of its text: how many times as fast as its peers a program is."""
    most = max(2, *(ratio for _, ratio in bars))
    scale = (WIDTH - LEFT - 60) / most
    height = FIRST + 10 + (BAR + 8) * len(bars)
    made = head(title, WIDTH, height)
    made.append(f'<text x="{LEFT - 8}" y="{FIRST - 14}" text-anchor="end">text</text>')
    made.append(f'<text x="{LEFT}" y="40">{axis}</text>')
    for number in range(int(most) + 1):
        x = LEFT + scale * number
        kind = "one" if number == 1 else "grid"
        made.append(f'<line class="{kind}" x1="{x:.1f}" y1="{FIRST - 8}" x2="{x:.1f}" y2="{height - 12}"/>')
        made.append(f'<text x="{x:.1f}" y="{FIRST - 14}" text-anchor="middle">{number}</text>')
    for number, (name, ratio) in enumerate(bars):
        y = FIRST + (BAR + 8) * number
        length = scale * ratio
        made.append(f'<text x="{LEFT - 8}" y="{y + 12}" text-anchor="end">{name}</text>')
        made.append(f'<rect class="bar" x="{LEFT}" y="{y}" width="{length:.1f}" height="{BAR}"/>')
        made.append(f'<text x="{LEFT + length + 6:.1f}" y="{y + 12}">{ratio:.2f}</text>')
    return "\n".join(made + ["</svg>", ""])


def draw(folder, rows):
    """Writes the pictures."""
    for name, way, title, axis, peers in PICTURES:
        bars = [(row.title, row.ratio(peers)) for row in rows if row.way == way]
        put_picture(f"{folder}/{name}.svg", title, axis, bars)


def put_picture(path, title, axis, bars):
    """Writes a picture to a file."""
    with open(path, "w", encoding="utf-8") as file:
        file.write(picture(title, axis, bars))


def put_between_marks(path, text, begin=BEGIN):
    """Puts the text between the two marks of a document, for what stood there."""
    with open(path, encoding="utf-8") as file:
        document = file.read()
    front, rest = document.split(begin)
    _, back = rest.split(END, 1)
    with open(path, "w", encoding="utf-8") as file:
        file.write(f"{front}{begin}\n{text}\n{END}{back}")

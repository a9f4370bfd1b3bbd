"""What the tools share: the program, the map of points, recordings, traces, messages, scripts and pictures."""

import array
import math
import os
import re
import shutil
import signal
import subprocess
import sys
from concurrent.futures import ProcessPoolExecutor
from dataclasses import dataclass
from html import escape
from importlib.machinery import SourceFileLoader
from importlib.util import module_from_spec, spec_from_loader
from pathlib import Path

UNIT = 2048  # of a sample's coordinate, in one unit of the map
SYMBOLS_A_SECOND = 2400
SLOT = 464  # symbols of a turn, where no end offers a longer information field than 128 octets
POINTS = [
    tuple(int(part) for part in point.split(","))
    for point in (
        "-4,1 0,-3 0,1 4,1 4,-1 0,3 0,-1 -4,-1 -2,3 -2,-1 2,3 2,-1 2,-3 2,1 -2,-3 -2,1 "
        "-3,-2 1,-2 -3,2 1,2 3,2 -1,2 3,-2 -1,-2 1,4 -3,0 1,0 1,-4 -1,-4 3,0 -1,0 -1,4"
    ).split()
]  # of each label at 9600 bit/s, in units of the map
QUARTERS = [(3, 1), (1, -3), (-3, -1), (-1, 3)]  # likewise at 4800 bit/s
POWER = 10  # the mean of the squared distances of either map's points from the middle, in squares of a unit

signal.signal(signal.SIGPIPE, signal.SIG_DFL)  # so that `| head` ends a tool quietly

if sys.argv[1:] == ["--help"]:
    print((sys.modules["__main__"].__doc__ or "").strip())
    sys.exit()


def fail(why, status=3):
    """Ends the tool: wrong words are status 2, wrong input 3."""
    print(f"{Path(sys.argv[0]).name}: {why}", file=sys.stderr)
    sys.exit(status)


def usage(doc):
    """Ends the tool for its words: the first line of its page says how it is used."""
    print("usage: " + doc.strip().splitlines()[0].split(": ", 1)[1], file=sys.stderr)
    sys.exit(2)


def number(word, least, most, kind=int):
    """A word as a number in its range: a whole one is spelled as the program's are, without a sign or zeros in front."""
    if kind is int and not re.fullmatch("0|[1-9][0-9]*", word, re.ASCII):
        fail(f"{word}: no number", 2)
    try:
        value = kind(word)
    except ValueError:
        fail(f"{word}: no number", 2)
    if not least <= value <= most:
        fail(f"{word}: not from {least} to {most}", 2)
    return value


def octets_of(name):
    """The octets of a file, or of standard input where the name is `-`."""
    try:
        return sys.stdin.buffer.read() if name == "-" else Path(name).read_bytes()
    except OSError as error:
        fail(f"{name}: {error.strerror}")


def program():
    """The program: $MODEM, the one beside the tools, or that of the path. It is asked for once, and known to the processes that this one begins."""
    if not os.environ.get("MODEM"):
        os.environ["MODEM"] = str(found_program())
    return os.environ["MODEM"]


def found_program():
    """The program beside the tools, in the repository as ./modem builds it, or that of the path."""
    top = Path(__file__).resolve().parent.parent
    if not (top / "modem").exists():
        return shutil.which("modem") or fail("there is no modem")
    built = top / "crates" / "modem_main" / "out" / "modem_main"
    # Without words ./modem ends with 2, where it is proved and current.
    asked = {**os.environ, "MODEM_PROVED": "1"}
    is_current = built.exists() and subprocess.run([top / "modem"], capture_output=True, check=False, env=asked).returncode == 2
    return built if is_current else top / "modem"


def modem(*words):
    """Runs the program: its status and what it said."""
    ran = subprocess.run([program(), *words], capture_output=True, text=True, check=False)
    return ran.returncode, ran.stdout.strip()


def fail_as(status, said, *names):
    """Ends the tool with what the program said of these inputs. Its `read fault` names none: the first that can't be read is named."""
    for name in names:
        try:
            Path(name).open("rb").close()
        except OSError as error:
            fail(f"{name}: {error.strerror}")
    fail(said or f"status {status}")


def beside(name):
    """Another of the tools, as a module."""
    loader = SourceFileLoader(name, str(Path(__file__).resolve().parent / name))
    module = module_from_spec(spec_from_loader(name, loader))
    sys.modules[name] = module
    loader.exec_module(module)
    return module


def on_all_processors(function, items):
    """What a function makes of each item, in order, by as many processes as there are processors, or as MODEM_JOBS says."""
    program()
    with ProcessPoolExecutor(int(os.environ.get("MODEM_JOBS") or os.cpu_count())) as pool:
        yield from pool.map(function, items)


# ---- recordings


def in_octets(parts):
    """Numbers of an array with their low octet first."""
    if sys.byteorder == "big":
        parts = parts[:]
        parts.byteswap()
    return parts.tobytes()


def clipped(value):
    """A coordinate as a sample can have it."""
    return max(-32768, min(32767, value))


@dataclass
class Recording:
    """A recording: two samples an octet at 9600 bit/s, four at 4800."""

    fast: bool
    answers: bool
    parts: array.array  # the coordinates of all samples, in order

    @classmethod
    def of(cls, fast, answers, samples):
        """A recording of pairs of coordinates, which are clipped."""
        return cls(fast, answers, array.array("h", (clipped(part) for sample in samples for part in sample)))

    def __len__(self):
        return len(self.parts) // 2

    @property
    def samples(self):
        """Its samples, as pairs of coordinates."""
        return list(zip(self.parts[::2], self.parts[1::2]))

    @property
    def role(self):
        """The end that sends it."""
        return "answ" if self.answers else "orig"

    @property
    def points(self):
        """The points of its labels, in units of the map."""
        return POINTS if self.fast else QUARTERS

    @property
    def header(self):
        """What stands before its samples."""
        return bytes((*b"V32R", (0 if self.fast else 2) + self.answers, 0, 0, 0))

    def octets(self):
        """The recording as a file."""
        return self.header + in_octets(self.parts)


def is_recording(name):
    """Whether a file begins as a recording does."""
    return name != "-" and octets_of(name)[:4] == b"V32R"


def read_recording(name):
    """Reads a recording of either rate."""
    octets = octets_of(name)
    if octets[:4] != b"V32R" or len(octets) < 8 or octets[4] > 3 or octets[5:8] != b"\0\0\0":
        fail(f"{name}: not a recording")
    if len(octets) % 4:
        fail(f"{name}: the last sample is cut")
    parts = array.array("h", octets[8:])
    if sys.byteorder == "big":
        parts.byteswap()
    return Recording(octets[4] < 2, bool(octets[4] % 2), parts)


def nearest(points, sample):
    """The label whose point is nearest to a sample."""
    x, y = sample[0] / UNIT, sample[1] / UNIT
    return min(range(len(points)), key=lambda label: (points[label][0] - x) ** 2 + (points[label][1] - y) ** 2)


# ---- traces


@dataclass
class Line:
    """What an end heard and sent in a turn."""

    turn: int
    role: str
    arrived: str  # the text of what was sent, or "" where nothing arrived
    lost: bool
    sent: str
    given: int  # units of 10 ms of the break that its user was given, or 0
    chance: bool


SHAPE = re.compile(
    r"(odp|adp|mark|flags|none|i s=\d+ r=\d+ p=[01] n=\d+|(rr|rnr|rej|srej) (cmd|rsp) r=\d+ p=[01]|(sabme|disc) cmd p=[01]|(ua|dm) rsp p=[01]"
    r"|frmr rsp p=[01] n=\d+|(xid|test) (cmd|rsp) p=[01] n=\d+|ui (cmd|rsp) p=[01] (brk [01] \d+|brkack [01] \d+|n=\d+))"
)
LINE = re.compile(r"(\d+) (orig|answ) (?:(chance)|(-|(lost )?(.+?)) > (.+?)(?: break=(\d+))?)")


def read_trace(name):
    """Reads a trace of `run` or of `peer`, line by line."""
    try:
        text = octets_of(name).decode("ascii")
    except UnicodeDecodeError:
        fail(f"{name}: not a trace")
    lines = []
    for count, row in enumerate(text.splitlines(), 1):
        found = LINE.fullmatch(row)
        if not found:
            fail(f"{name}: not a trace: line {count}")
        turn, role, chance, arrived, lost, what, sent, given = found.groups()
        if not chance and not all(SHAPE.fullmatch(it) for it in ((what,) if arrived != "-" else ()) + (sent,)):
            fail(f"{name}: not a trace: line {count}")
        heard = "" if chance or arrived == "-" else what
        lines.append(Line(int(turn), role, heard, bool(lost), sent or "", int(given or 0), bool(chance)))
    return lines or fail(f"{name}: not a trace: no lines")


def other(role):
    """The end at the other side."""
    return "answ" if role == "orig" else "orig"


def field(text, name):
    """A number in the text of a frame, as `s` or `n`."""
    return int(re.search(rf"\b{name}=(\d+)", text)[1])


def is_segment(text):
    """Whether this is an I frame."""
    return text.startswith("i s=")


# ---- messages


class Numbers:
    """Counts the segments of an end on, whose numbers are told modulo 128."""

    def __init__(self):
        self.next = 0

    def sent(self, text):
        """The segment of an I frame, and whether it goes for the first time: the next new one does, and none of the 127 before it."""
        behind = (self.next - field(text, "s")) % 128
        return self.count(self.next - behind)

    def heard(self, text):
        """The same, where some that were sent may be unknown: of all with that number it is the one that is nearest to the next new one."""
        ahead = (field(text, "s") - self.next + 64) % 128 - 64
        return self.count(self.next + ahead)

    def count(self, place):
        """A segment, and whether it is new."""
        new = place >= self.next
        self.next = max(self.next, place + 1)
        return place, new


QUIET = ("flags", "mark", "none", "")
PATTERNS = ("odp", "adp")
QUESTIONS = [  # what an end asks, and what answers it
    (re.compile(r"xid cmd"), re.compile(r"xid rsp")),
    (re.compile(r"sabme|disc"), re.compile(r"(ua|dm) rsp")),
    (re.compile(r"ui cmd .*brk "), re.compile(r"ui .*brkack ")),
    (re.compile(r"(rr|rnr) cmd .*p=1"), re.compile(r".* rsp .*p=1")),
]


@dataclass
class Message:
    """A frame or a pattern: by whom and when it was sent, and when it arrived. Of the two turns one may be unknown."""

    role: str
    text: str
    sent: int = None
    came: int = None
    lost: bool = False
    again: bool = False
    place: int = None  # of an I frame its segment, counted on beyond 127

    @property
    def begun(self):
        """The first turn in which it is seen."""
        return self.came if self.sent is None else self.sent

    @property
    def ended(self):
        """The last one."""
        return self.sent if self.came is None else self.came


class Sender:
    """What an end has sent so far, as far as it tells what goes again."""

    def __init__(self):
        self.numbers, self.asked, self.waiting = Numbers(), {}, []

    def count(self, message):
        """Marks a message that goes again: its segment went before, or it asks what was asked before and not answered."""
        if is_segment(message.text):
            count = self.numbers.heard if message.sent is None else self.numbers.sent
            message.place, new = count(message.text)
            message.again = not new
        for question, answer in QUESTIONS:
            if question.match(message.text):
                message.again = message.text in self.asked
                self.asked[message.text] = answer

    def answered(self, text):
        """Takes away what this answers."""
        self.asked = {asked: answer for asked, answer in self.asked.items() if not answer.match(text)}

    def arrived(self, text):
        """The first message on its way with this text; those before it were sent into nothing."""
        while self.waiting:
            message = self.waiting.pop(0)
            if message.text == text:
                return message
        return None


def messages_of(lines):
    """What crossed the line, in the order in which it was sent; of an end that the trace has no lines of, in that in which it arrived."""
    found = []
    senders = {role: Sender() for role in ("orig", "answ")}
    present = {line.role for line in lines}
    for line in lines:
        own, far = senders[line.role], senders[other(line.role)]
        is_alone = other(line.role) not in present
        if line.arrived not in QUIET:
            message = Message(other(line.role), line.arrived) if is_alone else far.arrived(line.arrived)
            if message:
                message.came, message.lost = line.turn, line.lost
            if is_alone:
                far.count(message)
                found.append(message)
            if not line.lost:
                own.answered(line.arrived)
        if line.sent not in QUIET:
            message = Message(line.role, line.sent, sent=line.turn)
            own.count(message)
            own.waiting.append(message)
            found.append(message)
            if is_alone:
                far.answered(line.sent)
    return found


def is_alone(lines):
    """Whether a trace is of one end, as those of `peer` are."""
    return len({line.role for line in lines}) == 1


def how_it_ended(lines):
    """How a run ended, as far as its trace shows it."""
    last = lines[-1]
    if last.chance:
        return "chance"
    if is_alone(lines):
        return "peer"
    if last.sent != "none":
        return "line_lost_or_cut"
    turn = [line for line in lines if line.turn == last.turn]
    released = any(line.role == "orig" and line.sent.startswith("disc ") for line in lines)
    if released and any(line.role == "orig" and not line.lost and line.arrived.startswith(("ua ", "dm ")) for line in turn):
        return "done"
    return "link_lost" if any(line.role == "orig" and line.arrived == "adp" and not line.lost for line in lines) else "not_detected"


# ---- scripts

WORDS = dict(delay=2, k=2, n401=2, n400=1, srej=1, check32=1, lose=3, hit=5, noise=5, busy=3) | {"break": 3}  # behind the first one of a line


class Script:
    """The lines of a script as numbers, without any where it has no name. Its grammar is the program's to judge, but for what would be misread here."""

    def __init__(self, name=None):
        self.name, self.rows = name, []
        for count, row in enumerate(octets_of(name).decode("ascii", "replace").splitlines() if name else (), 1):
            words = row.split()
            if not words or words[0].startswith("#"):
                continue
            first, *words = words
            role = words[0] if words and words[0] in ("orig", "answ") else None
            numbers = words[1:] if role else words
            has_role = first not in ("delay", "n400")
            if len(words) != WORDS.get(first) or bool(role) != has_role or not all(re.fullmatch(r"-?\d{1,20}", it) for it in numbers):
                fail(f"{name}: not a script: line {count}")
            self.rows.append((first, role, *map(int, numbers)))

    def lines(self, first, role=None):
        """The numbers of the lines with this first word, and of this role."""
        return [row[2:] for row in self.rows if row[0] == first and role in (None, row[1])]

    def number(self, first, role, default):
        """The number of a line that stands once, or once a role."""
        return next((row[0] for row in self.lines(first, role)), default)

    def both(self, first):
        """Whether both ends offer this."""
        return all(self.lines(first, role) for role in ("orig", "answ"))

    @property
    def window(self):
        """The window that the ends agree on: the smaller of both; with SREJ not above 64, so that numbers tell which segment is meant."""
        most = 64 if self.both("srej") else 127
        return min(most, *(self.number("k", role, 15) for role in ("orig", "answ")))

    @property
    def length(self):
        """The longest information field that they agree on."""
        return min(self.number("n401", role, 128) for role in ("orig", "answ"))

    @property
    def symbols(self):
        """How many symbols a turn has: as many as the longest frame that either end offers needs."""
        octets = 7 + max(128, *(self.number("n401", role, 128) for role in ("orig", "answ")))
        return 10 + -(-(8 * octets + 8 * octets // 5 + 8) // 4) + 128


def symbols_of(lines, script):
    """How many symbols a turn of a trace has, by its script, whose name may be None; a trace with frames that wouldn't go into one is refused."""
    if is_alone(lines):
        return fail(f"{script}: a trace of one end has no script") if script else SLOT
    longest = max((field(text, "n") for line in lines for text in (line.arrived, line.sent) if is_segment(text)), default=0)
    found = Script(script)
    if longest > found.length:
        fail(f"{script}: not the trace's script, whose segments have up to {longest} octets" if script else f"segments of {longest} octets: SCRIPT tells how long a turn is")
    return found.symbols


def milliseconds(turns, symbols=SLOT):
    """How long so many turns last."""
    return turns * symbols * 1000 / SYMBOLS_A_SECOND


# ---- noise


def decibel(ratio):
    """A ratio of powers in dB."""
    return 10 * math.log10(ratio)


def words_of_noise(seed, stream):
    """The words of PCG32 (XSH RR), without end."""
    mask, step = 2**64 - 1, 2 * stream + 1
    state = ((seed + step) * 6364136223846793005 + step) & mask
    while True:
        word, turn = (state >> 18 ^ state) >> 27 & 0xFFFFFFFF, state >> 59
        yield (word >> turn | word << (-turn & 31)) & 0xFFFFFFFF
        state = (state * 6364136223846793005 + step) & mask


def signal_to_noise(samples, cost):
    """Es/N0 of so many samples whose squared distances from their points add up to this."""
    return math.inf if cost == 0 else decibel(POWER * UNIT**2 * samples / cost)


# ---- pictures


class Picture:
    """A picture, as SVG."""

    def __init__(self, title, width, height, font="sans-serif", size=12):
        self.rows = [
            f'<svg xmlns="http://www.w3.org/2000/svg" viewBox="0 0 {width:g} {height:g}" font-family="{font}" font-size="{size}">',
            f"<title>{escape(title)}</title>",
            f'<rect width="{width:g}" height="{height:g}" fill="#fff"/>',
        ]

    @staticmethod
    def attributes(given):
        """Attributes, a `_` in a name being a `-`."""
        return "".join(f' {name.rstrip("_").replace("_", "-")}="{value}"' for name, value in given.items() if value is not None)

    def add(self, row):
        """Adds a row as it is."""
        self.rows.append(row)

    def line(self, x1, y1, x2, y2, stroke="#eee", **given):
        """A straight line."""
        self.add(f'<line x1="{x1:.1f}" y1="{y1:.1f}" x2="{x2:.1f}" y2="{y2:.1f}" stroke="{stroke}"{self.attributes(given)}/>')

    def path(self, places, stroke, width=2, **given):
        """A line through places."""
        points = " ".join(f"{x:.1f},{y:.1f}" for x, y in places)
        self.add(f'<polyline fill="none" stroke="{stroke}" stroke-width="{width}" points="{points}"{self.attributes(given)}/>')

    def dots(self, places, fill, radius=3, **given):
        """A dot at each place."""
        circles = "".join(f'<circle cx="{x:.1f}" cy="{y:.1f}" r="{radius}"/>' for x, y in places)
        self.add(f'<g fill="{fill}"{self.attributes(given)}>{circles}</g>')

    def mark(self, x, y, shape, colour, is_full=True):
        """A mark whose shape tells it from others where colours don't: circle, square or triangle."""
        form = {
            "circle": f"M{x - 4:.1f} {y:.1f}a4 4 0 1 0 8 0a4 4 0 1 0 -8 0z",
            "square": f"M{x - 3.5:.1f} {y - 3.5:.1f}h7v7h-7z",
            "triangle": f"M{x - 4.5:.1f} {y + 3.5:.1f}h9l-4.5 -8z",
        }[shape]
        self.add(f'<path d="{form}" fill="{colour if is_full else "#fff"}" stroke="{colour}"/>')

    def text(self, x, y, words, anchor="start", fill="#222", **given):
        """Words at a place."""
        self.add(f'<text x="{x:.1f}" y="{y:.1f}" text-anchor="{anchor}" fill="{fill}"{self.attributes(given)}>{escape(str(words))}</text>')

    def legend(self, x, y, rows, width):
        """What the lines mean: colours, dashes and words, and the shapes of their marks, below one another."""
        self.add(f'<rect x="{x}" y="{y}" width="{width}" height="{18 * len(rows) + 10}" fill="#fff" stroke="#ccc"/>')
        for place, (colour, dash, words, *shape) in enumerate(rows):
            down = y + 18 * place + 14
            self.line(x + 8, down, x + 38, down, colour, stroke_width=2, stroke_dasharray=dash)
            for it in shape:
                self.mark(x + 23, down, it, colour)
            self.text(x + 46, down + 4, words)

    def show(self):
        """Prints the picture."""
        print("\n".join([*self.rows, "</svg>"]))

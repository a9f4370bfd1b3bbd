"""V.32 trellis decoding and a V.42 link, by the proved library libmodem: samples to bits and back, bits to frames and back, an end of the link.

    >>> import modem
    >>> encoder, decoder = modem.Encoder(), modem.Decoder()
    >>> bits = modem.bits_of(b"hello")
    >>> samples = encoder.push(bits)
    >>> modem.octets_of(decoder.push(samples) + decoder.finish())
    b'hello'

Bits are bytes of 0 and 1, the lowest bit of an octet first. Samples are complex numbers in units of V.32's map, whose 32 points reach from -4 to 4; a numpy array
of them, or an array of 16-bit integers (real and imaginary part by turns, 2048 a unit), is taken as it is. Samples that come out are a numpy array where
numpy is installed, else a list of complex numbers. A number that its place in the library doesn't hold raises ModemError. Call an object from one thread at a time.

The shared library is found by the variable MODEM_LIBRARY, beside this file, where pip installed it, in the folder that `make library` or the archive has it in, or
where the system's loader finds libmodem.so.1.
"""

import ctypes
import os
import platform
import site
import sys
from array import array
from collections import namedtuple
from ctypes import POINTER, Structure, byref, c_int16, c_int32, c_size_t, c_uint8, c_uint16, c_uint32, c_uint64, c_void_p
from pathlib import Path

try:
    import numpy
except ImportError:
    numpy = None

__all__ = [
    "Decoder", "Encoder", "Meter", "Deframer", "Detector", "Framer", "Link", "Frame", "Piece", "Offer", "Terms", "Setup", "Slot", "Fault",
    "ModemError", "LineLost", "LinkBroken", "XidError", "bits_of", "octets_of", "write_frame", "frame_bits", "read_offer", "write_offer", "agree", "version",
]  # fmt: skip

UNIT = 2048
INFO, WHOLE, LAST_BITS, FRAME_BITS = 1024, 1031, 512, 10460
DONE, NOTHING, FULL, LOST, BROKEN = range(5)
NO_MEMORY, EMPTY, WRONG_KIND, BAD_ARGUMENT, ORDER, LATE = range(-1, -7, -1)


class _Words(dict):
    """The numbers of words."""

    def __missing__(self, word):
        raise ValueError(f"{word!r}: not one of {', '.join(map(repr, self))}")


LINES = _Words({"9600": 0, "9600 middle": 1, "4800": 2})
MODES = _Words({"call": 0, "answer": 1})
ROLES = _Words({"orig": 0, "answ": 1})
SLOTS = ("ones", "odp", "adp", "octets", "flags")
PIECES = ("none", "frame", "ragged", "aborted", "too long", "too short", "bad check", "refused")
REFUSALS = ("", "address", "control", "short", "long")
PHASES = ("detecting", "negotiating", "establishing", "connected", "releasing", "closed")
CAUSES = ("", "not detected", "tries spent", "bad acknowledgement", "peer began anew", "peer refused")
XID_FAULTS = ("", "format", "group", "length", "value", "repeated")
KINDS = {
    "i": 0x00, "rr": 0x01, "rnr": 0x05, "rej": 0x09, "srej": 0x0D, "sabme": 0x6F, "disc": 0x43, "ua": 0x63, "dm": 0x0F,
    "frmr": 0x87, "ui": 0x03, "xid": 0xAF, "test": 0xE3,
}  # fmt: skip
NAMES = {control: name for name, control in KINDS.items()}
NO_NUMBER = 255


def _places():
    """Where the shared library may be, the likeliest first."""
    here = Path(__file__).resolve().parent
    yield os.environ.get("MODEM_LIBRARY")
    for folder in (here, here.parent / "out/library" / platform.machine(), here.parent / "lib", Path(sys.prefix) / "lib", Path(site.getuserbase()) / "lib"):
        found = folder / "libmodem.so.1"
        if found.exists():
            yield str(found)
    yield "libmodem.so.1"


def _load():
    for place in _places():
        if place:
            return ctypes.CDLL(place)


_library = _load()
_library.modem_text.restype = ctypes.c_char_p
_library.modem_version.restype = ctypes.c_char_p
_library.modem_free.restype = None


class _Handle(Structure):
    _fields_ = [("at", c_void_p)]


class _Progress(Structure):
    _fields_ = [("read", c_size_t), ("written", c_size_t), ("lost", c_uint64)]


class _Reading(Structure):
    _fields_ = [("cost", c_uint64), ("symbols", c_uint64), ("sure", c_uint8)]


class _Frame(Structure):
    _fields_ = [(name, c_uint8) for name in ("control", "command", "pf", "ns", "nr")]


class _Found(Structure):
    _fields_ = [("read", c_size_t), ("ended", c_uint64), ("info", c_size_t), ("piece", c_uint8), ("fault", c_uint8), ("octet", c_uint8), ("frame", _Frame)]


class _Offer(Structure):
    _fields_ = [(name, c_uint16) for name in ("tx_length", "rx_length")] + [(name, c_uint8) for name in ("tx_window", "rx_window", "srej", "check32")]


class _Terms(Structure):
    _fields_ = [(name, c_uint16) for name in ("originator_length", "answerer_length")] + [
        (name, c_uint8) for name in ("originator_window", "answerer_window", "srej", "check32")
    ]


class _XidFault(Structure):
    _fields_ = [("at", c_size_t), ("cause", c_uint8)]


class _Setup(Structure):
    _fields_ = [("offer", _Offer), ("period", c_uint32), ("tries", c_uint8), ("role", c_uint8)]


class _Fault(Structure):
    _fields_ = [("cause", c_uint32), ("nr", c_uint8), ("low", c_uint8), ("high", c_uint8)] + [(name, c_uint64) for name in ("acknowledged", "taken", "since")]


class _Sent(Structure):
    _fields_ = [("kind", c_uint32), ("octets", c_size_t)]


class _Standing(Structure):
    _fields_ = [("phase", c_uint32), ("whole", c_uint32), ("check32", c_uint32)]


_OCTETS, _PARTS, _SIZE = POINTER(c_uint8), POINTER(c_int16), c_size_t
_HANDLE = POINTER(_Handle)
for _name, _words in {
    "decoder_new": (_HANDLE, c_uint8, c_uint8),
    "decoder_push": (_HANDLE, _PARTS, _SIZE, _OCTETS, _SIZE, POINTER(_Progress)),
    "decoder_finish": (_HANDLE, _OCTETS, _SIZE, POINTER(_Progress)),
    "encoder_new": (_HANDLE, c_uint8, c_uint8),
    "encoder_push": (_HANDLE, _OCTETS, _SIZE, _PARTS, _SIZE, POINTER(_Progress)),
    "meter_new": (_HANDLE, c_uint8),
    "meter_push": (_HANDLE, _OCTETS, _SIZE, _PARTS, _SIZE, POINTER(_Progress)),
    "meter_read": (_HANDLE, POINTER(_Reading)),
    "deframer_new": (_HANDLE, c_uint8, c_uint8),
    "deframer_set_check": (_HANDLE, c_uint8),
    "deframer_push": (_HANDLE, _OCTETS, _SIZE, _OCTETS, _SIZE, POINTER(_Found)),
    "deframer_octets": (_HANDLE, _OCTETS, _SIZE, POINTER(_SIZE)),
    "detector_new": (_HANDLE,),
    "detector_push": (_HANDLE, _OCTETS, _SIZE, POINTER(_SIZE), POINTER(c_uint32)),
    "frame_write": (POINTER(_Frame), _OCTETS, _SIZE, c_uint8, c_uint8, _OCTETS, _SIZE, POINTER(_SIZE)),
    "frame_bits": (_OCTETS, _SIZE, _OCTETS, _SIZE, POINTER(_SIZE)),
    "framer_new": (_HANDLE, c_uint16),
    "framer_slot": (_HANDLE, c_uint32, _OCTETS, _SIZE, _OCTETS, _SIZE, POINTER(_SIZE)),
    "xid_read": (_OCTETS, _SIZE, POINTER(_Offer), POINTER(_XidFault)),
    "xid_write": (POINTER(_Offer), _OCTETS, _SIZE, POINTER(_SIZE)),
    "xid_agree": (POINTER(_Offer), POINTER(_Offer), POINTER(_Terms)),
    "link_new": (_HANDLE, POINTER(_Setup)),
    "link_receive": (_HANDLE, c_uint32, _OCTETS, _SIZE, POINTER(c_int32), POINTER(_Fault)),
    "link_deliver": (_HANDLE, _OCTETS, _SIZE, POINTER(_SIZE)),
    "link_wants": (_HANDLE, POINTER(_SIZE)),
    "link_offer": (_HANDLE, _OCTETS, _SIZE),
    "link_ask_break": (_HANDLE, c_uint8),
    "link_set_busy": (_HANDLE, c_uint8),
    "link_standing": (_HANDLE, POINTER(_Standing)),
    "link_send": (_HANDLE, c_uint8, _OCTETS, _SIZE, POINTER(_Sent), POINTER(_Fault)),
}.items():
    _call = getattr(_library, "modem_" + _name)
    _call.argtypes, _call.restype = _words, c_int32


class ModemError(Exception):
    """A call of the library returned a code that isn't 0."""

    def __init__(self, code, text=None):
        super().__init__(text or _library.modem_text(code).decode())
        self.code = code


class LineLost(ModemError):
    """Too many symbols are undecided since `symbol`, counted from 0. `bits` are those of this call that were decided before it."""

    def __init__(self, symbol, bits):
        super().__init__(LOST, f"line lost since symbol {symbol}")
        self.symbol, self.bits = symbol, bits


class LinkBroken(ModemError):
    """The link broke; `fault` says why. The end goes on as a closed one. `delivered` is what a whole turn had delivered before."""

    def __init__(self, fault):
        super().__init__(BROKEN, f"link broken: {fault.cause}")
        self.fault, self.delivered = fault, b""


class XidError(ModemError):
    """An information field is no offer: its first fault, and the octet at which."""

    def __init__(self, cause, at):
        super().__init__(BAD_ARGUMENT, f"bad xid: {cause}" + ("" if cause == "format" else f" at {at}"))
        self.cause, self.at = cause, at


Fault = namedtuple("Fault", "cause nr low high acknowledged taken since")
Frame = namedtuple("Frame", "kind command pf ns nr info", defaults=(True, False, None, None, b""))
Piece = namedtuple("Piece", "what ended frame octets refusal")
Offer = namedtuple("Offer", "tx_length rx_length tx_window rx_window srej check32", defaults=(128, 128, 15, 15, False, False))
Terms = namedtuple("Terms", "originator_length answerer_length originator_window answerer_window srej check32")
Setup = namedtuple("Setup", "role offer period tries", defaults=(Offer(), 20, 8))
Slot = namedtuple("Slot", "kind octets", defaults=(b"",))
Fault.__doc__ = "Why a link broke: one of CAUSES, and the numbers that go with it."
Frame.__doc__ = "A frame: its kind by name (KINDS), whether it is a command, P/F, N(S) and N(R) where the kind has them, and its information."
Piece.__doc__ = "What ended at the bit `ended`, counted from 1: one of PIECES, its frame or its octets with their check, and why it was refused."
Offer.__doc__ = "What an end offers: lengths in octets [N401], windows in segments [k], selective reject, the check of 32 bits."
Terms.__doc__ = "What two ends agree on, for the segments of the originator and of the answerer."
Setup.__doc__ = "An end: its role, its offer, the turns that it waits for an answer [T401], and how often it tries [N400]."
Slot.__doc__ = "What a line carries in a turn: one of SLOTS, and the octets of a frame with its check."


def version():
    """The library's version."""
    return _library.modem_version().decode()


def bits_of(octets):
    """The bits of octets, an octet a bit, the lowest bit of each first."""
    return bytes(octet >> place & 1 for octet in octets for place in range(8))


def octets_of(bits):
    """The whole octets that bits are."""
    return bytes(sum((bits[at + place] & 1) << place for place in range(8)) for at in range(0, len(bits) - 7, 8))


def _octets(data):
    """Octets as C takes them, and how many."""
    if getattr(data, "itemsize", 1) != 1:
        data = data.tolist()  # an array of wider numbers, not the octets of which they are made
    data = bytes(data)
    return (c_uint8 * max(1, len(data))).from_buffer_copy(data or b"\0"), len(data)


def _parts(samples):
    """The parts of samples, as C takes them, and how many."""
    if numpy is not None and isinstance(samples, numpy.ndarray):
        if samples.dtype != numpy.int16:
            pairs = numpy.empty((len(samples), 2))
            pairs[:, 0], pairs[:, 1] = samples.real, samples.imag
            if not numpy.isfinite(pairs).all():
                raise ValueError("a sample is no number")
            samples = numpy.clip(numpy.rint(pairs * UNIT), -32768, 32767).astype(numpy.int16)
        data = numpy.ascontiguousarray(samples).reshape(-1)
        _even(data)
        return data.ctypes.data_as(_PARTS), len(data), data
    if isinstance(samples, memoryview) and samples.format == "h":
        samples = array("h", samples)
    if isinstance(samples, (bytes, bytearray, memoryview)):
        raise TypeError("octets are no samples: array('h', ..) or numpy.frombuffer(.., '<i2') makes their parts of a recording's")
    if isinstance(samples, array) and samples.typecode == "h":
        data = samples
        _even(data)
    else:
        clip = lambda part: max(-32768, min(32767, round(part * UNIT)))  # noqa: E731
        data = array("h", (clip(part) for sample in samples for part in (complex(sample).real, complex(sample).imag)))
    kept = (c_int16 * max(1, len(data))).from_buffer_copy(data.tobytes() or b"\0\0")
    return kept, len(data), kept


def _even(parts):
    if len(parts) % 2:
        raise ValueError("a sample has two parts")


def _filled(kind, *values):
    """A structure of these numbers. What its field doesn't hold is refused: C would take it without its high bits."""
    filled = kind(*values)
    for (name, _), value in zip(kind._fields_, values):
        if not isinstance(value, Structure) and getattr(filled, name) != value:
            raise ModemError(BAD_ARGUMENT, f"{name} is out of its range: {value}")
    return filled


def _within(value, most, name):
    if not 0 <= value <= most:
        raise ModemError(BAD_ARGUMENT, f"{name} is out of its range: {value}")
    return value


def _samples(parts, count):
    """Samples of so many parts that C gave."""
    if numpy is not None:
        pairs = numpy.frombuffer(parts, dtype=numpy.int16, count=count).astype(float) / UNIT
        return pairs[0::2] + 1j * pairs[1::2]
    return [complex(parts[at], parts[at + 1]) / UNIT for at in range(0, count, 2)]


class _Owner:
    """What has a handle of the library: it is freed with this object."""

    def __init__(self, name, *words):
        self._handle = _Handle()
        self._check(getattr(_library, f"modem_{name}_new")(byref(self._handle), *words))

    def __del__(self):
        if hasattr(self, "_handle"):
            _library.modem_free(byref(self._handle))

    @staticmethod
    def _check(code):
        if code != DONE:
            raise ModemError(code)


class Decoder(_Owner):
    """Samples to bits. `line` is "9600", "9600 middle" (from any symbol on) or "4800" (this project's own), `mode` that of the modem that transmits."""

    def __init__(self, line="9600", mode="call"):
        super().__init__("decoder", LINES[line], MODES[mode])

    def push(self, samples):
        """Samples more: the bits that they decide."""
        data, count, _kept = _parts(samples)
        room = (c_uint8 * (2 * count + 520))()
        at, bits, progress, code = 0, [], _Progress(), FULL
        while code == FULL:
            here = ctypes.cast(ctypes.byref(data, 2 * at) if isinstance(data, ctypes.Array) else ctypes.c_void_p(ctypes.cast(data, c_void_p).value + 2 * at), _PARTS)
            code = _library.modem_decoder_push(self._handle, here, count - at, room, len(room), progress)
            bits.append(bytes(memoryview(room)[: progress.written]))
            at += 2 * progress.read
        if code == LOST:
            raise LineLost(progress.lost, b"".join(bits))
        self._check(code)
        return b"".join(bits)

    def finish(self):
        """The bits that still waited, at the line's end."""
        room, progress = (c_uint8 * LAST_BITS)(), _Progress()
        code = _library.modem_decoder_finish(self._handle, room, LAST_BITS, progress)
        if code == LOST:
            raise LineLost(progress.lost, b"")
        self._check(code)
        return bytes(room[: progress.written])


class Encoder(_Owner):
    """Bits to samples. Bits that fill no symbol wait for the next call."""

    def __init__(self, line="9600", mode="call"):
        super().__init__("encoder", LINES[line], MODES[mode])
        self._waiting = b""

    def push(self, bits):
        """Bits more: the samples that they become."""
        bits = self._waiting + bytes(bits)
        data, count = _octets(bits)
        room, progress = (c_int16 * (count + 2))(), _Progress()
        self._check(_library.modem_encoder_push(self._handle, data, count, room, len(room), progress))
        self._waiting = bits[progress.read :]
        return _samples(room, 2 * progress.written)


class Meter(_Owner):
    """How well a line at 9600 bit/s is decoded: push the bits and the samples that they were decoded of; what isn't used yet waits."""

    def __init__(self, mode="call"):
        super().__init__("meter", MODES[mode])
        self._bits, self._data = b"", array("h")

    def push(self, bits, samples):
        """Bits more, and samples more. They needn't be as many."""
        data, count, _kept = _parts(samples)
        self._bits += bytes(bits)
        self._data.extend(data[:count])
        octets, many = _octets(self._bits)
        parts, count, _kept = _parts(self._data)
        progress = _Progress()
        self._check(_library.modem_meter_push(self._handle, octets, many, parts, count, progress))
        self._bits = self._bits[progress.read :]
        del self._data[: progress.read // 2]

    @property
    def cost(self):
        """The squared distances in all, in squares of a unit, and of how many symbols."""
        reading = self._reading()
        return reading.cost / UNIT**2, reading.symbols

    @property
    def decibel(self):
        """Es/N0 in dB; infinite without noise."""
        from math import inf, log10

        reading = self._reading()
        return 10 * log10(10 * UNIT**2 * reading.symbols / reading.cost) if reading.cost else inf

    @property
    def is_sure(self):
        """Whether the noise is below 2.5 squares of a unit in all: what a decoder of this mode gives then begins these bits. A wrong mode is sure too."""
        return bool(self._reading().sure)

    def _reading(self):
        reading = _Reading()
        self._check(_library.modem_meter_read(self._handle, reading))
        return reading


class Deframer(_Owner):
    """Bits to frames. `sender` is the end whose bits are received; `check32` where I and S frames have a check of 32 bits."""

    def __init__(self, sender="orig", check32=False):
        super().__init__("deframer", ROLES[sender], int(check32))

    def set_check(self, check32):
        """I and S frames have a check of 32 bits from now on, or of 16."""
        self._check(_library.modem_deframer_set_check(self._handle, int(check32)))

    def push(self, bits):
        """Bits more: what ends in them, a Piece each."""
        data, count = _octets(bits)
        info, octets, found, size = (c_uint8 * INFO)(), (c_uint8 * WHOLE)(), _Found(), c_size_t()
        at, pieces = 0, []
        while True:
            code = _library.modem_deframer_push(self._handle, ctypes.cast(ctypes.byref(data, at), _OCTETS), count - at, info, INFO, found)
            if code == NOTHING:
                return pieces
            self._check(code)
            at += found.read
            whole = b""
            code = _library.modem_deframer_octets(self._handle, octets, WHOLE, size)
            if code != NOTHING:
                self._check(code)
                whole = bytes(octets[: size.value])
            what = PIECES[found.piece]
            frame = _frame_of(found.frame, bytes(info[: found.info])) if what == "frame" else None
            refusal = (REFUSALS[found.fault], found.octet) if what == "refused" else None
            pieces.append(Piece(what, found.ended, frame, whole, refusal))


class Detector(_Owner):
    """Bits to the patterns that the ends send before the link is up."""

    def __init__(self):
        super().__init__("detector")

    def push(self, bits):
        """Bits more: the patterns that are seen in them, "odp" or "adp" each, once two whole ones came in a row."""
        data, count = _octets(bits)
        read, kind, at, seen = c_size_t(), c_uint32(), 0, []
        while True:
            code = _library.modem_detector_push(self._handle, ctypes.cast(ctypes.byref(data, at), _OCTETS), count - at, read, kind)
            if code == NOTHING:
                return seen
            self._check(code)
            at += read.value
            seen.append(SLOTS[kind.value])


def _frame_of(fields, info):
    number = lambda it: None if it == NO_NUMBER else it  # noqa: E731
    return Frame(NAMES[fields.control], bool(fields.command), bool(fields.pf), number(fields.ns), number(fields.nr), info)


def write_frame(frame, sender, check32=False):
    """The octets of a frame with its check, as that end sends it."""
    number = lambda it: NO_NUMBER if it is None else it  # noqa: E731
    fields = _filled(_Frame, KINDS[frame.kind], frame.command, frame.pf, number(frame.ns), number(frame.nr))
    info, many = _octets(frame.info)
    room, size = (c_uint8 * WHOLE)(), c_size_t()
    _Owner._check(_library.modem_frame_write(fields, info, many, ROLES[sender], int(check32), room, WHOLE, size))
    return bytes(room[: size.value])


def frame_bits(octets):
    """The bits of a frame for a line that isn't cut into slots: four flags, the frame's octets with their check, and the closing flag."""
    data, count = _octets(octets)
    room, size = (c_uint8 * FRAME_BITS)(), c_size_t()
    _Owner._check(_library.modem_frame_bits(data, count, room, FRAME_BITS, size))
    return bytes(room[: size.value])


class Framer(_Owner):
    """Writes slots of so many symbols of four bits, 139 to 2615, one after another."""

    def __init__(self, symbols=464):
        super().__init__("framer", _within(symbols, 65535, "symbols"))
        self._symbols = symbols

    def push(self, slot):
        """The bits of the next slot."""
        data, count = _octets(slot.octets)
        room, size = (c_uint8 * (4 * self._symbols))(), c_size_t()
        self._check(_library.modem_framer_slot(self._handle, SLOTS.index(slot.kind), data, count, room, len(room), size))
        return bytes(room[: size.value])


def read_offer(info):
    """The offer that an XID information field spells; else XidError."""
    data, count = _octets(info)
    offer, fault = _Offer(), _XidFault()
    if _library.modem_xid_read(data, count, offer, fault) != DONE:
        raise XidError(XID_FAULTS[fault.cause], fault.at)
    return Offer(offer.tx_length, offer.rx_length, offer.tx_window, offer.rx_window, bool(offer.srej), bool(offer.check32))


def write_offer(offer):
    """The XID information field of an offer."""
    room, size = (c_uint8 * INFO)(), c_size_t()
    _Owner._check(_library.modem_xid_write(_filled(_Offer, *offer), room, INFO, size))
    return bytes(room[: size.value])


def agree(originator, answerer):
    """What two ends agree on by their offers."""
    terms = _Terms()
    _Owner._check(_library.modem_xid_agree(_filled(_Offer, *originator), _filled(_Offer, *answerer), terms))
    return Terms(
        terms.originator_length, terms.answerer_length, terms.originator_window, terms.answerer_window, bool(terms.srej), bool(terms.check32)
    )  # fmt: skip


class Link(_Owner):
    """An end of the link, turn by turn: `receive`, `delivered`, `offer` while it `wants`, `send`; or `turn`, which does all of it.

    What a turn is, is yours: one frame each way is a good measure. Choose the period longer than a frame and its answer take.
    """

    def __init__(self, setup):
        super().__init__("link", _filled(_Setup, _filled(_Offer, *setup.offer), setup.period, setup.tries, ROLES[setup.role]))
        self.given = None

    def _checked(self, code, why):
        if code == BROKEN:
            raise LinkBroken(Fault(CAUSES[why.cause], why.nr, why.low, why.high, why.acknowledged, why.taken, why.since))
        self._check(code)

    def receive(self, slot=Slot("ones")):
        """What came in this turn: the length of the other end's break in units of 10 ms, where one is given, else None."""
        data, count = _octets(slot.octets)
        given, why = c_int32(), _Fault()
        self.given = None
        self._checked(_library.modem_link_receive(self._handle, SLOTS.index(slot.kind), data, count, given, why), why)
        self.given = None if given.value < 0 else given.value
        return self.given

    def delivered(self):
        """The octets that came in order since the last turn."""
        room, size, parts = (c_uint8 * INFO)(), c_size_t(), []
        while (code := _library.modem_link_deliver(self._handle, room, INFO, size)) == DONE:
            parts.append(bytes(room[: size.value]))
        if code != NOTHING:
            raise ModemError(code)
        return b"".join(parts)

    def wants(self):
        """How many octets it takes next, or None."""
        size = c_size_t()
        code = _library.modem_link_wants(self._handle, size)
        if code == NOTHING:
            return None
        self._check(code)
        return size.value

    def offer(self, piece):
        """The next piece of the file. One shorter than it wants ends the file, and an empty one ends it without a segment."""
        data, count = _octets(piece)
        self._check(_library.modem_link_offer(self._handle, data, count))

    def ask_break(self, length):
        """A break of so many units of 10 ms: whether it is taken."""
        code = _library.modem_link_ask_break(self._handle, _within(length, 255, "length"))
        if code not in (DONE, NOTHING):
            raise ModemError(code)
        return code == DONE

    def set_busy(self, busy):
        """Whether its user asks for a pause from now on. Before it is connected that is forgotten."""
        self._check(_library.modem_link_set_busy(self._handle, int(busy)))

    def send(self, release=False):
        """What it transmits in this turn, with which the turn ends. `release` tells a connected originator to take the link down."""
        room, sent, why = (c_uint8 * WHOLE)(), _Sent(), _Fault()
        self._checked(_library.modem_link_send(self._handle, int(release), room, WHOLE, sent, why), why)
        return Slot(SLOTS[sent.kind], bytes(room[: sent.octets]))

    def turn(self, slot, read, release=False):
        """A whole turn: what came, and a function that reads so many octets of the file: what goes out, and what was delivered. A break that came is `given`
        then. Of a link that breaks the LinkBroken has what was delivered before as `delivered`, and the turn has ended."""
        delivered, broken = b"", None
        try:
            try:
                self.receive(slot)
            except LinkBroken as fault:
                broken = fault
            delivered = self.delivered()
            while (count := self.wants()) is not None:
                self.offer(read(count))
            sent = self.send(release)
        except LinkBroken as fault:
            fault.delivered = delivered
            raise
        if broken:
            broken.delivered = delivered
            raise broken
        return sent, delivered

    @property
    def phase(self):
        """One of PHASES."""
        return PHASES[self._standing().phase]

    @property
    def is_whole(self):
        """Whether it is connected, its file has ended, and all of it is acknowledged."""
        return bool(self._standing().whole)

    @property
    def check32(self):
        """Whether I and S frames have a check of 32 bits now."""
        return bool(self._standing().check32)

    def _standing(self):
        standing = _Standing()
        self._check(_library.modem_link_standing(self._handle, standing))
        return standing

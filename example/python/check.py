#!/usr/bin/env python3
"""The library from Python, each part once: check.py FILE

It decodes what it encodes, in pieces and with noise; reads the frames that it writes; agrees on terms; and lets two ends cross FILE over a line that loses a tenth.
"""

import random
import sys

import modem


def signals(data):
    """What is encoded is decoded, at both rates, whatever pieces it comes in."""
    bits = modem.bits_of(data)
    for line, mode in (("9600", "call"), ("9600", "answer"), ("4800", "call")):
        encoder, decoder, back, at = modem.Encoder(line, mode), modem.Decoder(line, mode), b"", 0
        while at < len(bits):
            count = random.randrange(1, 3000)
            back += decoder.push(encoder.push(bits[at : at + count]))
            at += count
        assert modem.octets_of(back + decoder.finish()) == data


def lock(data):
    """A meter reads the noise that was added."""
    meter, decoder = modem.Meter(), modem.Decoder()
    noisy = [complex(it) + complex(random.gauss(0, 0.2), random.gauss(0, 0.2)) for it in modem.Encoder().push(modem.bits_of(data))]
    meter.push(decoder.push(noisy), noisy)
    assert 20 < meter.decibel < 22 and not meter.is_sure


def frames():
    """Frames and patterns are read as they were written."""
    frame = modem.Frame("i", True, False, 3, 5, b"hello")
    (piece,) = modem.Deframer().push(modem.frame_bits(modem.write_frame(frame, "orig")))
    assert piece.what == "frame" and piece.frame == frame
    framer = modem.Framer()
    assert set(modem.Detector().push(framer.push(modem.Slot("adp")))) == {"adp"}
    offer = modem.Offer(srej=True, tx_window=20)
    assert modem.read_offer(modem.write_offer(offer)) == offer
    assert modem.agree(offer, modem.Offer()).srej is False


def links(data):
    """Both files cross, though a tenth of what is sent is lost."""
    ends = [modem.Link(modem.Setup(role, modem.Offer(srej=True, check32=True))) for role in ("orig", "answ")]
    files, took, slots = [data, data[::-1]], [b"", b""], [modem.Slot("ones")] * 2
    left = list(files)

    def reader(end):
        def read(count):
            piece, left[end] = left[end][:count], left[end][count:]
            return piece

        return read

    while not all(end.is_whole for end in ends):
        sent = []
        for at, end in enumerate(ends):
            slot, delivered = end.turn(slots[at], reader(at))
            took[at] += delivered
            sent.append(slot)
        slots = [modem.Slot("ones") if random.random() < 0.1 else slot for slot in reversed(sent)]
    assert took == files[::-1]


def faults():
    """Each kind of fault is an exception."""
    for wrong, kind in (
        (lambda: modem.Decoder().push([0] * 1000), modem.LineLost),
        (lambda: modem.read_offer(b"\x81"), modem.XidError),
        (lambda: modem.Link(modem.Setup("orig", tries=30)), modem.ModemError),
        (lambda: modem.Link(modem.Setup("orig")).send(), modem.ModemError),
    ):
        try:
            wrong()
        except kind:
            continue
        raise AssertionError(kind)


def main():
    if len(sys.argv) != 2:
        sys.exit(__doc__)
    random.seed(1)
    with open(sys.argv[1], "rb") as file:
        data = file.read()
    signals(data)
    lock(data)
    frames()
    links(data)
    faults()
    print(f"modem.py with libmodem {modem.version()}: all as it should be")


if __name__ == "__main__":
    main()

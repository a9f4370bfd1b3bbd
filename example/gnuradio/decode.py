#!/usr/bin/env python3
"""A flow graph without windows: decode.py SYMBOLS BITS [call|answer]

SYMBOLS has complex numbers of two 32-bit floats each, one a symbol, in units of V.32's map; BITS gets an octet a bit. It needs GNU Radio, and modem.py of this
project where Python finds it.
"""

import sys

from gnuradio import blocks, gr
from modem_decoder import blk as Decoder


class Decode(gr.top_block):
    def __init__(self, symbols, bits, mode):
        gr.top_block.__init__(self, "decode")
        source = blocks.file_source(gr.sizeof_gr_complex, symbols, False)
        sink = blocks.file_sink(gr.sizeof_char, bits)
        sink.set_unbuffered(True)
        # A block in Python has to be kept by somebody.
        self.decoder = Decoder("9600", mode)
        self.connect(source, self.decoder, sink)


def main():
    if len(sys.argv) not in (3, 4):
        sys.exit(__doc__)
    Decode(sys.argv[1], sys.argv[2], sys.argv[3] if len(sys.argv) == 4 else "call").run()


if __name__ == "__main__":
    main()

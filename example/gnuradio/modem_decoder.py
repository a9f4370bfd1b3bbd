"""
Embedded Python block: V.32 symbols to bits, as they come, by the library libmodem.

It takes one complex symbol a sample, in units of V.32's map (points of mean power 10), and gives the bits that are decided, an octet each. The first bits come
some 25 symbols behind the first sample, up to 128 where there is much noise; those that wait when the flow graph ends are not given.
"""

import modem
import numpy as np
from gnuradio import gr


class blk(gr.basic_block):
    """V.32 Decoder"""

    def __init__(self, line="9600", mode="call"):
        gr.basic_block.__init__(self, name="V.32 Decoder", in_sig=[np.complex64], out_sig=[np.uint8])
        self.decoder = modem.Decoder(line, mode)
        self.waiting, self.is_lost = b"", False

    def forecast(self, noutput_items, ninputs):
        # Four bits a symbol; bits that wait need none.
        return [0 if self.waiting or self.is_lost else max(1, noutput_items // 4)] * ninputs

    def general_work(self, input_items, output_items):
        symbols, bits = input_items[0], output_items[0]
        if not self.waiting and self.is_lost:
            return gr.WORK_DONE
        if not self.waiting and len(symbols):
            count = max(1, min(len(symbols), len(bits) // 4))
            try:
                self.waiting = self.decoder.push(symbols[:count])
            except modem.LineLost as lost:
                gr.log.error(str(lost))
                self.waiting, self.is_lost = lost.bits, True
            self.consume(0, count)
        count = min(len(self.waiting), len(bits))
        bits[:count] = np.frombuffer(self.waiting[:count], dtype=np.uint8)
        self.waiting = self.waiting[count:]
        return count

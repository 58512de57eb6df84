# SPDX-License-Identifier: MIT OR Apache-2.0
"""A relay without an order of messages, in the place of `bsc run`: it passes on whatever comes, at once. With the word `orderly` it is
the controller of tests/model as it is. Usage: plain_relay.py [orderly] run --config FILE
"""
import sys
from pathlib import Path

from lib.relay_program import Program, open_links
from model.controller import Controller, Settings, discriminator

HANDOVER_COMMAND = 0x2B


class Orderly(Controller):
    """The model's, with the cell that a HANDOVER COMMAND leads to in its octets."""

    def put(self, link, message):
        if message[0] == "COMMAND" and message[3][1] == HANDOVER_COMMAND:
            cell = self.settings.cells[self.users[link, message[1]].target[0] - 1]
            described = bytes([cell["arfcn"] >> 8 << 6 | cell["bsic"], cell["arfcn"] & 255])
            message = (*message[:3], message[3][:2] + described + message[3][4:])
        super().put(link, message)


class Plain(Orderly):
    """Holds nothing, whatever channel a message came on, and while the mobile changes its channel too."""

    def data(self, place, sapi, message):
        users = [c for c in self.connections.values() if (place, False) in c.draining] or [self.users.get(place)]
        if discriminator(message) == 6 or users[0] is None or users[0].peer is None:
            super().data(place, sapi, message)
        else:
            self.to_switch(users[0], "DTAP", sapi, message)

    def downlink(self, c, sapi, message):
        self.hand(c, sapi, message)


def main():
    text = Path(sys.argv[-1]).read_text()
    controller = (Orderly if sys.argv[1] == "orderly" else Plain)(Settings(text))
    Program(open_links(text), controller).run()


if __name__ == "__main__":
    main()

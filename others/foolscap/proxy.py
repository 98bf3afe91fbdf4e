"""A TCP proxy on 127.0.0.1 that holds back, lets go or cuts one connection.

    proxy.py LISTEN CONTROL TARGET [REFUSE]

LISTEN, CONTROL and TARGET are ports. From the accepted connection number REFUSE on (counted from 1) each is refused. A line on CONTROL is
`hold N`, `release N` or `cut N`, where N is the number of an accepted connection; what is held are the bytes towards TARGET.
"""
from __future__ import annotations

import sys

from twisted.internet import endpoints, protocol, reactor
from twisted.protocols import basic

LISTEN, CONTROL, TARGET = map(int, sys.argv[1:4])
REFUSE = int(sys.argv[4]) if sys.argv[4:] else None
fronts: dict[int, "Front"] = {}
held: set[int] = set()


class Back(protocol.Protocol):
    """The connection to the target."""

    def __init__(self, front: "Front") -> None:
        self.front = front

    def connectionMade(self) -> None:
        self.front.back = self
        self.front.flush()

    def dataReceived(self, data: bytes) -> None:
        self.front.transport.write(data)

    def connectionLost(self, reason) -> None:
        self.front.transport.loseConnection()


class Front(protocol.Protocol):
    """An accepted connection."""

    back = None

    def connectionMade(self) -> None:
        self.number = len(fronts) + 1
        self.pieces: list[bytes] = []
        fronts[self.number] = self
        if REFUSE is not None and self.number >= REFUSE:
            self.transport.abortConnection()
            return
        endpoint = endpoints.TCP4ClientEndpoint(reactor, "127.0.0.1", TARGET)
        endpoints.connectProtocol(endpoint, Back(self))

    def dataReceived(self, data: bytes) -> None:
        self.pieces.append(data)
        self.flush()

    def flush(self) -> None:
        if self.back and self.number not in held:
            for piece in self.pieces:
                self.back.transport.write(piece)
            self.pieces = []

    def cut(self) -> None:
        self.pieces = []
        self.transport.abortConnection()
        if self.back:
            self.back.transport.abortConnection()

    def connectionLost(self, reason) -> None:
        if self.back:
            self.back.transport.loseConnection()


class Control(basic.LineReceiver):
    delimiter = b"\n"

    def lineReceived(self, line: bytes) -> None:
        order, word = line.decode().split()
        number = int(word)
        if order == "hold":
            held.add(number)
        elif order == "release":
            held.discard(number)
            fronts[number].flush()
        elif order == "cut":
            fronts[number].cut()
        self.sendLine(b"done")


reactor.listenTCP(LISTEN, protocol.Factory.forProtocol(Front), interface="127.0.0.1")
reactor.listenTCP(CONTROL, protocol.Factory.forProtocol(Control), interface="127.0.0.1")
reactor.run()

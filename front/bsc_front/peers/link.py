# SPDX-License-Identifier: MIT OR Apache-2.0
"""A TCP connection that carries IPA frames, and the identification of its other side. Not proved."""
import asyncio
import errno
import os
import socket
from collections.abc import Awaitable, Callable
from typing import NoReturn

from bsc_front.octets import ipa
from bsc_front.service.log import ERROR, complaints, fault_in_words
from bsc_front.service.presence import Traffic

Address = tuple[str, int]
Taker = Callable[[int, bytes], object]  # of a frame: its stream and its body

PATIENCE = 30.0  # seconds for the other side's identification
PINGS = 3  # parts of the silence after which a link is ended; a PING goes after each
MOST_WAITING = 1 << 20  # octets that may wait for a station or a switch that doesn't read
READ = 65536  # octets that are read at once, and that are kept of a link whose frames aren't taken yet before no more are read
MOST_IN_ROW = 64  # frames of a link that are taken before all others have their turn
ROW = 2 * READ  # octets that are looked through for them: more than a frame may have
BACKLOG = 32  # links that are taken at once at a port
ENOUGH = 1 << 16  # octets that may wait for bsc before whoever sends to it waits, too
MOST_FOR_BSC = 1 << 24  # octets that may wait for bsc and be kept for it; whoever sends more loses his link
LOOK_EVERY = 0.5  # seconds, while a link waits for bsc, before more than that is kept of it, and between two looks how much that is
LINGER = 2.0  # seconds for what was written, where a link is closed
# seconds after which the system asks a silent peer whether it is there, and until it asks again; how often
KEEPALIVE = ((socket.TCP_KEEPIDLE, 30), (socket.TCP_KEEPINTVL, 10), (socket.TCP_KEEPCNT, 3))


class LinkFault(Exception):
    """A link that can't be used any more, and why."""


class Turn:
    """Frames of a link are taken, and all that is written meanwhile goes out behind them, to each link in one piece."""

    def __init__(self) -> None:
        self.is_on = False
        self.written: list["Link"] = []

    def end(self) -> None:
        """Sends what was written."""
        self.is_on = False
        written, self.written = self.written, []
        for link in written:
            link.send()


turn = Turn()
read_into = memoryview(bytearray(READ))


def nobody() -> None:
    """No link."""


class Link(asyncio.BufferedProtocol):
    """A TCP connection that carries IPA frames.

    Frames go to whoever serves the link as soon as they have come, without a task between; else they are kept for `read`.
    """

    transport: asyncio.Transport

    def __init__(self, opened: Callable[["Link"], None] | None = None) -> None:
        self.opened = opened
        self.loop = asyncio.get_running_loop()
        self.octets = bytearray()  # read, and not yet taken
        self.most_kept = READ  # octets beyond which no more are read
        self.frames: list[bytes] = []  # heads and bodies that were written in this turn
        self.taker: Taker | None = None
        self.bsc: Callable[[], Link | None] = nobody  # whom the frames are for, where it may be waited for
        self.stop: asyncio.Future[None] = self.loop.create_future()  # frames aren't taken any more
        self.arrival: asyncio.Future[None] | None = None  # something has come, or the link has ended
        self.has_room = asyncio.Event()  # the other side has taken enough
        self.has_room.set()
        self.quiet_since = 0.0  # when something came last, or was asked for, by the loop's clock
        self.asked = 0  # PINGs since something came
        self.silence = 0.0  # seconds without an octet after which the link is given up; 0: it isn't watched
        self.watching: asyncio.TimerHandle | None = None
        self.most_waiting = MOST_WAITING  # octets; 0: any number
        self.why = ""  # why this side has ended it
        self.fault = ""  # why it has ended by itself, though not yet all that came before that is taken
        self.is_due = False  # frames that have come are taken in their turn
        self.in_row = 0  # frames that were taken while nobody else had a turn
        self.traffic = Traffic()  # of the peer, once it is known whose link this is
        self.host = self.peer = "unknown"

    # ---- what the event loop tells

    def connection_made(self, transport: asyncio.BaseTransport) -> None:
        """The link is there."""
        assert isinstance(transport, asyncio.Transport)
        self.transport = transport
        transport.set_write_buffer_limits(ENOUGH)
        host, port = (transport.get_extra_info("peername") or ("unknown", 0))[:2]
        self.host = str(host)
        self.peer = in_words(host, port)
        if self.opened:
            self.opened(self)

    def get_buffer(self, sizehint: int) -> memoryview:
        """Where the event loop puts octets. All links share it, since what came is copied from there at once."""
        return read_into

    def buffer_updated(self, nbytes: int) -> None:
        """Octets have come."""
        self.quiet_since, self.asked = self.loop.time(), 0
        self.octets += read_into[:nbytes]
        self.go_on()
        if len(self.octets) > self.most_kept:
            self.transport.pause_reading()

    def eof_received(self) -> bool:
        """The other side has ended. What came before is taken yet; whoever serves the link closes it."""
        self.end_with("")
        return True

    def connection_lost(self, fault: Exception | None) -> None:
        """The link has ended."""
        self.end_with(f"read failed: {reason(fault)}" if isinstance(fault, OSError) else "")
        self.has_room.set()
        self.watch(0.0)

    def pause_writing(self) -> None:
        """The other side doesn't take enough."""
        self.has_room.clear()

    def resume_writing(self) -> None:
        """It does again."""
        self.has_room.set()

    # ---- reading

    def end_with(self, fault: str) -> None:
        """Notes that the link has ended by itself. The first fault counts."""
        self.fault = self.fault or fault or "closed"
        self.go_on()

    def go_on(self) -> None:
        """Goes on with what has come, or with the end."""
        if self.arrival and not self.arrival.done():
            self.arrival.set_result(None)
        if not self.is_due:
            self.take_frames()

    async def read(self) -> tuple[int, bytes]:
        """The next frame: its stream and its body. Nothing is lost where this is cancelled."""
        self.in_row += 1
        if self.in_row > MOST_IN_ROW:
            self.in_row = 1
            await asyncio.sleep(0)
        while True:
            if self.why:
                raise LinkFault(self.why)
            if frame := ipa.take_frame(self.octets):
                self.traffic.received += 1
                self.keep(self.most_kept)
                return frame
            if self.fault:
                raise self.ended()
            self.arrival = self.loop.create_future()
            await self.arrival

    async def serve(self, take: Taker, bsc: Callable[[], "Link | None"] = nobody) -> NoReturn:
        """Gives each frame to `take` until the link ends, and raises why it has. While bsc, if the frames are for it, doesn't take
        enough, they wait."""
        while True:
            self.stop = self.loop.create_future()
            self.taker, self.bsc = take, bsc
            self.take_frames()
            try:
                await self.stop
            finally:
                self.taker = None
            await drain(bsc(), self)

    def take_frames(self) -> None:
        """Gives what has come to whoever serves the link, at most so many frames in a row. Behind a row that went on with an earlier one
        what comes waits for its turn, too."""
        self.is_due, was_due = False, self.is_due
        if not self.taker:
            return
        try:
            count, is_all = self.take_row(self.taker)
        except Exception as fault:
            self.stop_by(fault)
            return
        bsc = None if self.has_ended() else self.bsc()
        if self.why or is_all and self.fault:
            self.stop_by(self.ended())
        elif bsc and not bsc.has_room.is_set():
            self.stop_by(None)
        elif not is_all or was_due and count:
            self.is_due = True
            self.loop.call_soon(self.take_frames)

    def take_row(self, take: Taker) -> tuple[int, bool]:
        """Gives at most so many frames to `take`; gives how many, and whether these were all."""
        if self.why:
            return 0, True
        octets = bytes(memoryview(self.octets)[:ROW])
        is_whole = len(octets) == len(self.octets)
        frames, length = ipa.frames(octets, MOST_IN_ROW)
        del self.octets[:length]
        self.traffic.received += len(frames)
        turn.is_on = True
        try:
            for stream, body in frames:
                take(stream, body)
                if self.why:
                    break
        finally:
            turn.end()
        self.keep(self.most_kept)
        return len(frames), is_whole and len(frames) < MOST_IN_ROW

    def stop_by(self, fault: Exception | None) -> None:
        """Takes no frames any more, because of a fault, or until bsc has taken enough."""
        self.taker = None
        if not self.stop.done() and fault:
            self.stop.set_exception(fault)
        elif not self.stop.done():
            self.stop.set_result(None)

    def keep(self, most: int) -> None:
        """Reads on where fewer octets are kept."""
        self.most_kept = most
        if len(self.octets) <= most and not self.fault:
            self.transport.resume_reading()

    def has_ended(self) -> bool:
        """Whether the link has ended, though not yet all that came before may be taken."""
        return bool(self.fault or self.why)

    def ended(self) -> LinkFault:
        """Why the link has ended."""
        is_cut = self.fault == "closed" and self.octets
        return LinkFault(self.why or ("closed within a frame" if is_cut else self.fault))

    def watch(self, silence: float) -> None:
        """From now on asks a side from which nothing comes for too long by PING, and gives it up then. With 0 it isn't watched."""
        self.silence = silence
        if self.watching:
            self.watching.cancel()
            self.watching = None
        if silence and not self.has_ended():
            self.quiet_since, self.asked = self.loop.time(), 0
            self.look()

    def look(self) -> None:
        """Looks whether something has come, again and again."""
        now, part = self.loop.time(), self.silence / PINGS
        if now >= self.quiet_since + part:
            self.quiet_since = now
            self.asked += 1
            self.write(ipa.CCM, bytes((ipa.PING,)))
        if self.asked == PINGS:
            self.end(f"silent for {self.silence:g} s")
        else:
            self.watching = self.loop.call_at(self.quiet_since + part, self.look)

    # ---- writing

    def write(self, stream: int, body: bytes) -> None:
        """Sends a frame, at the turn's end where there is one. A link that has ended takes nothing any more."""
        if not self.frames:
            if self.transport.is_closing():
                return
            turn.written.append(self)
        self.frames.append(ipa.head(stream, len(body)))
        self.frames.append(body)
        if not turn.is_on:
            turn.end()

    def send(self) -> None:
        """Sends what was written. A side that reads too slowly loses its link, so that nothing else waits for it."""
        frames, self.frames = self.frames, []
        if not frames or self.transport.is_closing():
            return
        self.traffic.sent += len(frames) // 2
        self.transport.write(b"".join(frames))
        if 0 < self.most_waiting < self.transport.get_write_buffer_size():
            self.end("it doesn't read")

    def end(self, why: str) -> None:
        """Ends the link at once: nothing more is read or written, and the reader hears why."""
        self.why = self.why or why
        self.transport.abort()

    def close(self) -> None:
        """Closes the connection, once what was written is taken, or a little later."""
        self.send()
        self.transport.close()
        self.loop.call_later(LINGER, self.transport.abort)

    def answer_ccm(self, body: bytes) -> None:
        """Answers a PING; no other message of CCM wants an answer once the sides are identified."""
        if body[:1] == bytes((ipa.PING,)):
            self.write(ipa.CCM, bytes((ipa.PONG,)))


async def identify(link: Link) -> dict[int, str]:
    """Asks the side that has connected to us who it is, and acknowledges its answer."""
    link.write(ipa.CCM, ipa.ASKED)
    try:
        async with asyncio.timeout(PATIENCE):
            return await identity(link)
    except TimeoutError as fault:
        raise LinkFault("it didn't identify itself") from fault


async def identity(link: Link) -> dict[int, str]:
    """The answer of a side that was asked who it is; it may say PING before."""
    while True:
        stream, body = await link.read()
        if stream != ipa.CCM:
            raise LinkFault("it didn't identify itself before it sent anything else")
        if body[:1] == bytes((ipa.ID_RESPONSE,)):
            link.write(ipa.CCM, bytes((ipa.ID_ACKNOWLEDGE,)))
            return ipa.read_identity(body)
        link.answer_ccm(body)


async def introduce(link: Link, name: str) -> None:
    """Says who this side is, which has connected, until the other side has acknowledged it."""
    try:
        async with asyncio.timeout(PATIENCE):
            await acknowledged(link, name)
    except TimeoutError as fault:
        raise LinkFault("it hasn't asked who this side is, or hasn't acknowledged it") from fault


async def acknowledged(link: Link, name: str) -> None:
    """Answers each message of CCM until one acknowledges this side's name; that is acknowledged, too."""
    while True:
        stream, body = await link.read()
        if stream != ipa.CCM:
            raise LinkFault("it sent anything else before it asked who this side is")
        if body[:1] == bytes((ipa.ID_GET,)):
            link.write(ipa.CCM, ipa.identity(name))
        elif body[:1] == bytes((ipa.ID_ACKNOWLEDGE,)):
            link.write(ipa.CCM, body[:1])
            return
        else:
            link.answer_ccm(body)


async def serve(address: Address, taken: Callable[[Link], Awaitable[None]]) -> asyncio.Server:
    """Listens at an address; each connection is given to `taken`, and closed behind it."""
    tasks: set[asyncio.Task[None]] = set()

    async def take(link: Link) -> None:
        """Serves a connection, until the front is ended."""
        try:
            await taken(link)
        except asyncio.CancelledError:
            pass
        except Exception as fault:
            complaints().say(f"link {link.peer}: a fault of the front ends it: {fault_in_words(fault)}", ERROR)
        finally:
            link.close()

    def opened(link: Link) -> None:
        """A connection is there."""
        task = asyncio.get_running_loop().create_task(take(link))
        tasks.add(task)
        task.add_done_callback(tasks.discard)

    return await asyncio.get_running_loop().create_server(lambda: Link(opened), *address, reuse_address=True, backlog=BACKLOG)


def join_bsc(link: Link) -> None:
    """Readies a link to bsc, which is never ended from this side while bsc is there. The system asks whether it is, and no PING does:
    a bsc that is slow to answer would lose its link for good."""
    link.most_waiting = 0
    keep_alive(link)


def keep_alive(link: Link) -> None:
    """Has the system ask whether the other side of a link is there."""
    own = link.transport.get_extra_info("socket")
    own.setsockopt(socket.SOL_SOCKET, socket.SO_KEEPALIVE, 1)
    for kind, value in KEEPALIVE:
        own.setsockopt(socket.IPPROTO_TCP, kind, value)


async def drain(bsc: Link | None, asker: Link) -> None:
    """Waits until bsc has taken enough of what a station or the switch has sent. A link of bsc that has broken is found by its own
    reader. Where bsc takes nothing, what the asker sends is kept, since his end comes behind it: what he had sent is then passed
    on. Who sends more than is kept, or falls silent, loses his link."""
    while bsc and not bsc.has_room.is_set() and not asker.has_ended():
        try:
            async with asyncio.timeout(LOOK_EVERY):
                await bsc.has_room.wait()
        except TimeoutError:
            asker.keep(MOST_FOR_BSC - bsc.transport.get_write_buffer_size())
            if len(asker.octets) > asker.most_kept:
                asker.end("it sends on while bsc doesn't read")
    asker.keep(READ)


def is_ipv6(host: str) -> bool:
    """Whether an address is one of IPv6."""
    return ":" in host


def in_words(host: str, port: int) -> str:
    """An address as it is in the settings: one of IPv6 has brackets."""
    return f"[{host}]:{port}" if is_ipv6(host) else f"{host}:{port}"


def reason(fault: OSError) -> str:
    """Why something of the system failed, in words."""
    return os.strerror(fault.errno) if (fault.errno or 0) > 0 else fault.strerror or str(fault)


async def connect(address: Address) -> Link:
    """Connects to an address. Where nobody listens, the system may connect a port to itself; that is no link."""
    transport, link = await asyncio.get_running_loop().create_connection(Link, *address)
    if transport.get_extra_info("sockname") == transport.get_extra_info("peername"):
        link.close()
        raise OSError(errno.ECONNREFUSED, os.strerror(errno.ECONNREFUSED))
    return link

# SPDX-License-Identifier: MIT OR Apache-2.0
"""Passes the frames of a TCP connection on, and delays those of one way when asked to. Not proved.

    python3 -m real_network.delay LISTEN CONNECT

A line on standard input says by how many milliseconds what comes from the side that connected is delayed from then on.
"""
import asyncio
import contextlib
import sys

from bsc_front.peers.link import Link, LinkFault, connect, serve
from bsc_front.service.settings import read_address

delay = 0.0  # seconds


async def pass_back(source: Link, target: Link) -> None:
    """Passes on at once."""
    await source.serve(target.write)


async def pass_on(source: Link, target: Link) -> None:
    """Passes on what comes, each frame as late as was said when it came, none before the one that came earlier."""
    loop, line = asyncio.get_running_loop(), asyncio.Queue()

    async def write() -> None:
        """Writes each frame when it is due."""
        while True:
            due, frame = await line.get()
            await asyncio.sleep(max(0.0, due - loop.time()))
            target.write(*frame)

    writing = asyncio.create_task(write())
    try:
        await source.serve(lambda *frame: line.put_nowait((loop.time() + delay, frame)))
    finally:
        writing.cancel()


async def take(source: Link, address: tuple[str, int]) -> None:
    """Serves a connection until a side ends."""
    try:
        target = await connect(address)
    except OSError:
        return  # nobody listens there: this side's connection ends, too
    source.most_waiting = target.most_waiting = 0  # nothing is lost here
    tasks = [asyncio.create_task(pass_on(source, target)), asyncio.create_task(pass_back(target, source))]
    with contextlib.suppress(LinkFault):
        await asyncio.gather(*tasks)
    for task in tasks:
        task.cancel()
    target.close()


async def main(listen: str, address: str) -> None:
    """Listens, and takes what standard input says."""
    def change() -> None:
        """Takes a line of standard input, or its end."""
        global delay
        if line := sys.stdin.readline().strip():
            delay = int(line) / 1000
            print(f"delay: {delay:.1f} s", flush=True)
        else:
            asyncio.get_running_loop().remove_reader(sys.stdin)

    asyncio.get_running_loop().add_reader(sys.stdin, change)
    server = await serve(read_address(listen), lambda link: take(link, read_address(address)))
    print("listens", flush=True)
    await server.serve_forever()


if __name__ == "__main__":
    asyncio.run(main(*sys.argv[1:]))

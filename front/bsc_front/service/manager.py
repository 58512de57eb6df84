# SPDX-License-Identifier: MIT OR Apache-2.0
"""Tells the manager of services that has started the front, where there is one, how far it is. Not proved."""
import contextlib
import os
import socket


def tell(text: str) -> None:
    """Tells it this, as READY=1. Where there is none, or it doesn't take it, the front goes on."""
    path = os.environ.get("NOTIFY_SOCKET", "")
    if not path:
        return
    with socket.socket(socket.AF_UNIX, socket.SOCK_DGRAM) as own, contextlib.suppress(OSError):
        own.sendto(text.encode(), "\0" + path[1:] if path.startswith("@") else path)

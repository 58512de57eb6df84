# SPDX-License-Identifier: MIT OR Apache-2.0
"""Ports of this machine that nobody has when they are asked for."""
import socket


def free_ports(count, host="127.0.0.1"):
    family = socket.AF_INET6 if ":" in host else socket.AF_INET
    sockets = [socket.create_server((host, 0), family=family) for _ in range(count)]
    ports = [one.getsockname()[1] for one in sockets]
    for one in sockets:
        one.close()
    return ports

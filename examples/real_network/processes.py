# SPDX-License-Identifier: MIT OR Apache-2.0
"""Starts programs with their output in files, waits for what they say, and ends each by its process id. Not proved."""
import os
import signal
import socket
import subprocess
import time

LOOK_AGAIN = 0.05  # seconds
PATIENCE_AT_END = 6.0  # seconds: osmo-bts-virtual takes four


class Failed(Exception):
    """What didn't come about."""


class Process:
    """A program that runs, and what it has said so far."""

    def __init__(self, name: str, words: list[str], folder: str, environment: dict[str, str]) -> None:
        self.name = name
        self.path = os.path.join(folder, f"{name}.log")
        with open(self.path, "wb") as log:
            self.run = subprocess.Popen(words, stdin=subprocess.PIPE, stdout=log, stderr=log, cwd=folder,
                                        env={**os.environ, **environment})

    def said(self) -> list[str]:
        """The lines that it has said."""
        with open(self.path, encoding="utf-8", errors="replace") as log:
            return log.read().splitlines()

    def saying(self, *texts: str) -> list[str]:
        """Those of its lines that have one of the texts."""
        return [line for line in self.said() if any(text in line for text in texts)]

    def wait_for(self, text: str, seconds: float, times: int = 1) -> None:
        """Waits until it has said something so often."""
        end = time.monotonic() + seconds
        while len(self.saying(text)) < times:
            ended = self.run.poll()
            if ended is not None and len(self.saying(text)) < times:
                raise Failed(f"{self.name} ended with {ended} before it said '{text}': {self.last()}")
            if time.monotonic() > end:
                raise Failed(f"{self.name} didn't say '{text}' within {seconds:.0f} s: {self.last()}")
            time.sleep(LOOK_AGAIN)

    def ended_with(self, seconds: float) -> int | None:
        """The status with which it ends by itself, or None where it goes on for longer."""
        try:
            return self.run.wait(seconds)
        except subprocess.TimeoutExpired:
            return None

    def last(self) -> str:
        """Its last line."""
        lines = [line for line in self.said() if line.strip()]
        return lines[-1] if lines else "nothing"

    def kill(self) -> None:
        """Kills it, by its process id."""
        self.run.kill()
        self.run.wait()

    def tell(self, *lines: str) -> None:
        """Writes lines to its standard input."""
        try:
            self.run.stdin.write("".join(f"{line}\n" for line in lines).encode())
            self.run.stdin.flush()
        except OSError as fault:
            raise Failed(f"{self.name} takes no commands any more: {self.last()}") from fault


class Processes:
    """All programs of a trial."""

    def __init__(self, folder: str) -> None:
        self.folder = folder
        self.running: list[Process] = []

    def start(self, name: str, words: list[str], environment: dict[str, str] | None = None) -> Process:
        """Starts a program."""
        process = Process(name, words, self.folder, environment or {})
        self.running.append(process)
        return process

    def end(self) -> None:
        """Ends all programs, the last one first."""
        for process in reversed(self.running):
            if process.run.poll() is None:
                process.run.send_signal(signal.SIGTERM)
        end = time.monotonic() + PATIENCE_AT_END
        for process in reversed(self.running):
            try:
                process.run.wait(max(0.0, end - time.monotonic()))
            except subprocess.TimeoutExpired:
                process.run.kill()
                process.run.wait()


def write(folder: str, name: str, text: str) -> str:
    """Writes a file; gives its path."""
    path = os.path.join(folder, name)
    with open(path, "w", encoding="utf-8") as file:
        file.write(text)
    return path


def terminal(port: int, *commands: str, host: str = "127.0.0.1", seconds: float = 10.0) -> str:
    """Gives commands to the terminal (VTY) of a program of Osmocom; what it answered."""
    end = time.monotonic() + seconds
    while True:
        try:
            link = socket.create_connection((host, port), seconds)
            break
        except OSError as fault:
            if time.monotonic() > end:
                raise Failed(f"no terminal at {host}:{port}: {fault.strerror}") from fault
            time.sleep(LOOK_AGAIN)
    with link:
        answer = until_prompt(link)
        for command in ("enable", *commands):
            link.sendall(command.encode() + b"\r\n")
            answer += until_prompt(link)
    return answer.decode(errors="replace")


def until_prompt(link: socket.socket) -> bytes:
    """What comes until the terminal waits for a command."""
    found = b""
    try:
        while not found.rstrip(b" ").endswith((b">", b"#")):
            octets = link.recv(4096)
            if not octets:
                break
            found += octets
    except TimeoutError:
        pass
    return found

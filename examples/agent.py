#!/usr/bin/env python3
"""A stand-in for the agent of the Workload API: plays sessions over a Unix socket.

    examples/agent.py [--socket PATH] [--pause SECONDS] [--jwt FRAMES] [--token FILE] [FRAMES]

FRAMES is a file of frames (docs/SESSIONS.md) for requests for X.509 SVIDs, --jwt for JWT bundles.
Each request gets the next frame that accepts or refuses a connection (kinds 3 and 4), and what
follows it (kinds 5 to 7), each after a pause. The other kinds, which a workload sees for itself,
are skipped. A stream that no frame ends is held open until the client goes; after the last stream
the agent ends. With --token, requests for a JWT SVID and for its validation are granted with the
token in FILE.
"""

import argparse
import base64
import contextlib
import io
import json
import os
import socket
import struct
import threading
import time

CONNECTED, CONNECT_STATUS, ITEM, ITEM_STATUS, STREAM_END = 3, 4, 5, 6, 7
STARTS, UPDATES = (CONNECTED, CONNECT_STATUS), (ITEM, ITEM_STATUS, STREAM_END)
X509_SVIDS, JWT_SVID, JWT_BUNDLES, VALIDATION = 0x11, 0x13, 0x14, 0x15
SECURITY_HEADER = (b"workload.spiffe.io", b"true")
MISSING_HEADER = b"\3\0\0\0\x24security header missing from request"
NOT_GRANTED, NOT_PLAYED = b"\3\0\0\0\x0bnot granted", b"\x0c\0\0\0\x0anot played"


def number_in(file):
    return int.from_bytes(file.read(4), "big")


def field_in(file):
    return file.read(number_in(file))


def field(octets):
    return struct.pack(">I", len(octets)) + octets


def listed(members):
    return struct.pack(">I", len(members)) + b"".join(members)


def claim(value):
    if isinstance(value, int):
        return b"\3" + struct.pack(">q", value)
    if isinstance(value, list):
        return b"\6" + listed([claim(member) for member in value])
    return b"\5" + field(value.encode())


class Session:
    """The streams of a session: one for each request that asks for it."""

    def __init__(self, path, pause):
        self.streams, self.pause, self.lock = [], pause, threading.Lock()
        with open(path, "rb") as file:
            while kind := file.read(1):
                frame = kind[0], field_in(file)
                if frame[0] in STARTS:
                    self.streams.append([frame])
                elif frame[0] in UPDATES and self.streams:
                    self.streams[-1].append(frame)

    def play(self, connection):
        """Plays the next stream, up to its end."""
        with self.lock:
            for kind, payload in self.streams.pop(0) if self.streams else ():
                time.sleep(self.pause if kind in UPDATES else 0)
                send(connection, kind, payload)
                if kind not in (CONNECTED, ITEM):
                    return


def send(connection, kind, payload):
    connection.sendall(bytes([kind]) + field(payload))


def granted(kind, asked, token):
    """The payload that grants a JWT SVID or a validation with the token, or None."""
    claims = json.loads(base64.urlsafe_b64decode(token.split(b".")[1] + b"=="))
    claims["aud"] = claims["aud"] if isinstance(claims["aud"], list) else [claims["aud"]]
    subject, asked_for = claims["sub"].encode(), field_in(asked)
    if kind == JWT_SVID and asked_for in (b"", subject):
        return listed([field(subject) + field(token) + field(b"")])
    if kind == VALIDATION and asked_for.decode() in claims["aud"] and field_in(asked) == token:
        named = [field(name.encode()) + claim(value) for name, value in claims.items()]
        return field(subject) + b"\1" + listed(named)
    return None


def serve(connection, sessions, token):
    """Responds to the requests of one connection, one after another, until the client goes."""
    with connection, connection.makefile("rb") as requests, contextlib.suppress(OSError):
        while kind := requests.read(1):
            kind, asked = kind[0], io.BytesIO(field_in(requests))
            headers = [(field_in(asked), field_in(asked)) for _ in range(number_in(asked))]
            if SECURITY_HEADER not in headers:
                send(connection, CONNECT_STATUS, MISSING_HEADER)
            elif kind in sessions:
                sessions[kind].play(connection)
            elif token is None or kind not in (JWT_SVID, VALIDATION):
                send(connection, CONNECT_STATUS, NOT_PLAYED)
            elif (response := granted(kind, asked, token)) is None:
                send(connection, CONNECT_STATUS, NOT_GRANTED)
            else:
                for frame in ((CONNECTED, b""), (ITEM, response), (STREAM_END, b"")):
                    send(connection, *frame)


def attend(listener, sessions, token):
    """Serves all clients, until each session was played to its end and all clients have gone."""
    clients = []
    while clients or not sessions or any(session.streams for session in sessions.values()):
        clients = [client for client in clients if client.is_alive()]
        with contextlib.suppress(TimeoutError):
            connection, _ = listener.accept()
            connection.settimeout(None)
            clients.append(threading.Thread(target=serve, args=(connection, sessions, token)))
            clients[-1].start()


def main():
    parser = argparse.ArgumentParser(description="Plays sessions to the clients of a socket.")
    parser.add_argument("--socket", default="agent.sock", help="where to listen")
    parser.add_argument("--pause", type=float, default=1.0, help="seconds before each update")
    parser.add_argument("--jwt", help="a file of frames of JWT bundles")
    parser.add_argument("--token", type=argparse.FileType("rb"), help="a file with a JWT SVID")
    parser.add_argument("frames", nargs="?", help="a file of frames of X.509 SVIDs")
    options = parser.parse_args()
    files = {X509_SVIDS: options.frames, JWT_BUNDLES: options.jwt}
    sessions = {kind: Session(path, options.pause) for kind, path in files.items() if path}
    with socket.socket(socket.AF_UNIX, socket.SOCK_STREAM) as listener:
        listener.bind(options.socket)
        try:
            listener.listen()
            listener.settimeout(0.1)
            attend(listener, sessions, options.token and options.token.read().strip())
        finally:
            os.unlink(options.socket)


if __name__ == "__main__":
    with contextlib.suppress(KeyboardInterrupt):
        main()

#!/usr/bin/env python3
"""Serves the wire of the client (docs/SESSIONS.md) on a Unix socket, and asks a real Workload API over gRPC.

    SPIFFE_ENDPOINT_SOCKET=unix:///run/spire/sockets/agent.sock examples/bridge.py /run/me/bridge.sock

Each request is one call of the agent, and ends the call before it; the bridge never asks again by itself. Its socket has
mode 0600. The agent attests the bridge, and not the client of the bridge: docs/REAL_AGENT.md.
"""
import grpc, os, socket, stat, struct, sys, threading

MAX_PAYLOAD = 1 << 24
STARTED, REFUSED, ITEM, ITEM_STATUS, END = 3, 4, 5, 6, 7
OPTIONS = [("grpc.max_receive_message_length", MAX_PAYLOAD), ("grpc.use_local_subchannel_pool", 1),
           ("grpc.enable_retries", 0)]

# ---- the texts of the wire
def field(octets):
    return struct.pack(">I", len(octets)) + octets

def listed(members):
    return struct.pack(">I", len(members)) + b"".join(members)

def pairs(found):
    return listed([field(name) + field(octets) for name, octets in found.items()])

class Reader:
    """Reads a payload, part after part."""

    def __init__(self, octets):
        self.octets, self.at = octets, 0

    def number(self):
        self.at += 4
        return struct.unpack(">I", self.octets[self.at - 4 : self.at])[0]

    def field(self):
        length = self.number()
        self.at += length
        return self.octets[self.at - length : self.at]

# ---- Protocol Buffers
def varint(octets, at):
    number = shift = 0
    while True:
        octet = octets[at]
        number, at, shift = number | (octet & 127) << shift, at + 1, shift + 7
        if octet < 128:
            return number, at

def parts(message):
    """The fields of a message, in order: the number and the value."""
    at = 0
    while at < len(message):
        tag, at = varint(message, at)
        if tag & 7 == 0:
            value, at = varint(message, at)
        else:
            length, at = varint(message, at) if tag & 7 == 2 else ({1: 8, 5: 4}[tag & 7], at)
            value, at = message[at : at + length], at + length
        if at > len(message):
            raise ValueError("a message ends inside a field")
        yield tag >> 3, value

def members(message, number):
    return [value for found, value in parts(message) if found == number]

def last(message, number):
    return (members(message, number) or [b""])[-1]

def record(message, count):
    return b"".join(field(last(message, number)) for number in range(1, count + 1))

def entries(message, number):
    """A map: of entries with the same key the last one counts, in its own place."""
    found = {}
    for entry in members(message, number):
        found.pop(last(entry, 1), None)
        found[last(entry, 1)] = last(entry, 2)
    return found

def spelled(number, octets):
    length, prefix = len(octets), bytes([number << 3 | 2])
    while length > 127:
        length, prefix = length >> 7, prefix + bytes([length & 127 | 128])
    return prefix + bytes([length]) + octets

# ---- requests and responses
def context(message):
    svids = listed([record(svid, 5) for svid in members(message, 1)])
    return svids + pairs(entries(message, 3)) + listed([field(crl) for crl in members(message, 2)])

def claims(message):
    return listed([field(name) + claim(value) for name, value in entries(message, 1).items()])

def claim(value):
    """A value of google.protobuf.Struct, whose last field says what it is."""
    number, octets = ([(0, b"")] + list(parts(value)))[-1]
    if number == 2:
        found = struct.unpack("<d", octets)[0]
        whole = found.is_integer() and abs(found) < 2**63
        return b"\3" + struct.pack(">q", int(found)) if whole else b"\4" + field(repr(found).encode())
    if number == 5:
        return b"\7" + claims(octets)
    if number == 6:
        return b"\6" + listed([claim(member) for member in members(octets, 1)])
    if number == 3:
        return b"\5" + field(octets)
    return {0: b"\0", 1: b"\1", 4: b"\2" + bytes([octets == 1])}[number]

def validation(message):
    found = members(message, 2)
    return field(last(message, 1)) + (b"\1" + claims(found[-1]) if found else b"\0")

def jwt_request(asked):
    spiffe_id, audience = asked.field(), [asked.field() for _ in range(asked.number())]
    return b"".join(spelled(1, name) for name in audience) + (spelled(2, spiffe_id) if spiffe_id else b"")
# For each kind of request: the method, the message of the request, and the payload of a response.
CALLS = {
    0x11: ("FetchX509SVID", lambda asked: b"", context),
    0x12: ("FetchX509Bundles", lambda asked: b"", lambda message: pairs(entries(message, 2))),
    0x13: ("FetchJWTSVID", jwt_request, lambda message: listed([record(svid, 3) for svid in members(message, 1)])),
    0x14: ("FetchJWTBundles", lambda asked: b"", lambda message: pairs(entries(message, 1))),
    0x15: ("ValidateJWTSVID", lambda asked: spelled(1, asked.field()) + spelled(2, asked.field()), validation),
}

class Connection:
    """One client of the bridge, whose requests come one after another."""

    def __init__(self, client, agent):
        self.client, self.agent, self.lock = client, agent, threading.Lock()
        self.turn, self.call = 0, None

    def serve(self):
        with self.client, self.client.makefile("rb") as requests:
            while len(head := requests.read(5)) == 5:
                kind, length = struct.unpack(">BI", head)
                if kind not in CALLS or length > MAX_PAYLOAD:
                    break
                asked, turn, (method, request, layout) = Reader(requests.read(length)), self.next_turn(), CALLS[kind]
                headers = [(asked.field().decode(), asked.field().decode()) for _ in range(asked.number())]
                answer = (turn, "/SpiffeWorkloadAPI/" + method, request(asked), layout, headers)
                threading.Thread(target=self.answer, args=answer, daemon=True).start()
            self.next_turn()

    def next_turn(self):
        """Ends the call before, for which nothing more is sent."""
        with self.lock:
            self.turn += 1
            if self.call:
                self.call.cancel()
            return self.turn

    def put(self, turn, kind, payload=b""):
        with self.lock:
            if self.turn == turn:
                self.client.sendall(bytes([kind]) + field(payload))

    def answer(self, turn, method, request, layout, headers):
        refusal = REFUSED
        try:
            with grpc.insecure_channel(self.agent, OPTIONS) as channel:
                with self.lock:
                    if self.turn != turn:
                        return
                    self.call = call = channel.unary_stream(method)(request, metadata=headers)
                for message in call:
                    payload = layout(message)
                    if refusal == REFUSED:
                        self.put(turn, STARTED)
                    refusal = ITEM_STATUS
                    if len(payload) > MAX_PAYLOAD:
                        return self.put(turn, ITEM_STATUS, b"\x08" + field(b"a response is too long"))
                    self.put(turn, ITEM, payload)
                if refusal == REFUSED:
                    self.put(turn, STARTED)
                self.put(turn, END)
        except grpc.RpcError as error:
            self.put(turn, refusal, bytes([error.code().value[0]]) + field((error.details() or "").encode()))
        except (ValueError, IndexError, KeyError, struct.error):
            self.put(turn, refusal, b"\x0d" + field(b"a response is no message"))
        except OSError:
            pass  # the client is gone

def main():
    endpoint = os.environ.get("SPIFFE_ENDPOINT_SOCKET", "")
    if len(sys.argv) != 2 or not endpoint.startswith("unix:/"):
        sys.exit("usage: SPIFFE_ENDPOINT_SOCKET=unix:///PATH bridge.py SOCKET")
    if os.path.exists(sys.argv[1]) and stat.S_ISSOCK(os.stat(sys.argv[1]).st_mode):
        os.unlink(sys.argv[1])
    os.umask(0o177)
    with socket.socket(socket.AF_UNIX) as listener:
        listener.bind(sys.argv[1])
        listener.listen()
        while True:
            connection = Connection(listener.accept()[0], "unix:" + endpoint[5:].replace("///", "/", 1))
            threading.Thread(target=connection.serve, daemon=True).start()

if __name__ == "__main__":
    main()

"""A link to a server on 127.0.0.1 in plain RESP2, and how a script says what passed.

A reply is read as: a simple one str, an error ErrorReply, an integer int, a bulk bytes, an array list, and either null
None. A reply that doesn't come within the patience is wrong.
"""
import socket
import struct
import sys
import traceback

HOST = "127.0.0.1"
# Seconds that a reply, or the end of a link, may take; machines may be busy.
PATIENCE = 30.0


class ErrorReply(str):
    """The text of an error reply."""


class Wrong(Exception):
    """A reply that isn't what the documents say."""


def request(*words):
    out = [b"*%d\r\n" % len(words)]
    for word in words:
        word = word if isinstance(word, bytes) else str(word).encode()
        out.append(b"$%d\r\n%s\r\n" % (len(word), word))
    return b"".join(out)


def expect(what, got, wanted):
    if got != wanted or isinstance(got, ErrorReply) != isinstance(wanted, ErrorReply):
        raise Wrong("%s: got %.200r, and not %.200r" % (what, got, wanted))


class Link:
    def __init__(self, port):
        self.socket = socket.create_connection((HOST, port), timeout=PATIENCE)
        self.socket.setsockopt(socket.IPPROTO_TCP, socket.TCP_NODELAY, 1)
        self.replies = self.socket.makefile("rb")

    def __enter__(self):
        return self

    def __exit__(self, *_):
        self.close()

    def send(self, content):
        self.socket.sendall(content)

    def line(self):
        line = self.replies.readline()
        if not line.endswith(b"\r\n"):
            raise Wrong("a line without its end: %r" % line)
        return line[:-2]

    def read(self):
        line = self.line()
        kind, rest = line[:1], line[1:]
        if kind == b"+":
            return rest.decode()
        if kind == b"-":
            return ErrorReply(rest.decode())
        if kind == b":":
            return int(rest)
        if kind == b"$":
            return self.bulk(int(rest))
        if kind == b"*":
            return None if rest == b"-1" else [self.read() for _ in range(int(rest))]
        raise Wrong("no reply begins with %r" % line)

    def bulk(self, length):
        if length < 0:
            return None
        content = self.replies.read(length + 2)
        if len(content) != length + 2 or content[-2:] != b"\r\n":
            raise Wrong("a bulk of %d bytes is cut off or has no end" % length)
        return content[:-2]

    def ask(self, *words):
        self.send(request(*words))
        return self.read()

    def expect_end(self, what):
        try:
            rest = self.replies.read(1)
        except ConnectionResetError:
            return
        expect(what + ": the link's end", rest, b"")

    def reset(self):
        """Closes so that the server sees a reset, and not an end."""
        self.socket.setsockopt(socket.SOL_SOCKET, socket.SO_LINGER, struct.pack("ii", 1, 0))
        self.close()

    def close(self):
        self.replies.close()
        self.socket.close()


def is_redis(port):
    """Whether the server is Redis, and not ours, which knows no INFO."""
    with Link(port) as link:
        return not isinstance(link.ask("INFO", "server"), ErrorReply)


def knows(port, *words):
    with Link(port) as link:
        reply = link.ask(*words)
        return not (isinstance(reply, ErrorReply) and reply.startswith("ERR unknown command"))


def passed(what):
    print("  passed: " + what, flush=True)


def skipped(what):
    print("  skipped: " + what, flush=True)


def run(cases):
    """Runs the cases on the port of the command line; a case's first line of documentation is what passed."""
    if len(sys.argv) < 2:
        sys.exit("usage: %s PORT [CASE ..]" % sys.argv[0])
    port = int(sys.argv[1])
    for case in cases:
        if sys.argv[2:] and case.__name__ not in sys.argv[2:]:
            continue
        try:
            why = case(port)
        except (Wrong, OSError, AssertionError) as error:
            traceback.print_exc()
            sys.exit("  WRONG: %s: %s" % (case.__name__, error))
        (skipped if why else passed)("%s%s" % (case.__doc__, ": " + why if why else ""))

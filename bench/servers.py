"""What the scripts that measure share: requests, the programs that answer them, and how these run under callgrind.

A script names itself by its folder in what it says: bench/serve/run is `bench/serve`.
"""
import os
import shutil
import socket
import subprocess
import sys
import tempfile
import threading
import time

TOP = os.path.dirname(os.path.dirname(os.path.abspath(__file__)))
SCRIPT = "bench/" + os.path.basename(os.path.dirname(os.path.abspath(sys.argv[0])))
HOST = "127.0.0.1"
KEYS = 10000
# Seconds for a server under callgrind to start or to answer.
PATIENCE = 120
# Seconds for all that is asked of one program on a pipe.
LIMIT = 900
# It writes into the folder that the program runs in.
COUNT = "count"
CALLGRIND = ("valgrind", "--tool=callgrind", "--callgrind-out-file=" + COUNT)


def fail(what):
    sys.exit("%s: %s" % (SCRIPT, what))


def skip_without(*tools):
    for tool in tools:
        if shutil.which(tool) is None:
            print("%s: skipped: no %s" % (SCRIPT, tool))
            sys.exit()


def request(*words):
    out = [b"*%d\r\n" % len(words)]
    for word in words:
        word = word if isinstance(word, bytes) else str(word).encode()
        out.append(b"$%d\r\n%s\r\n" % (len(word), word))
    return b"".join(out)


def key(k):
    """A key of 16 bytes, each of the 10,000 once in 10,000 numbers, in no order."""
    return b"key:%012d" % (k * 7919 % KEYS)


class Answering:
    """A process in a folder of its own; whoever derives from it makes `replies` and `send`."""

    def __init__(self, line, under, **streams):
        self.name = os.path.basename(line[0])
        self.folder = tempfile.TemporaryDirectory()
        self.process = subprocess.Popen(list(under) + line, cwd=self.folder.name, stderr=subprocess.DEVNULL, **streams)

    def ask(self, requests):
        """Sends all in one write and reads a reply to each."""
        self.send(b"".join(requests))
        for _ in requests:
            self.read_reply()

    def read_reply(self):
        head = self.replies.readline()
        if head.startswith(b"$") and not head.startswith(b"$-1"):
            self.replies.read(int(head[1:]) + 2)
        elif head.startswith(b"*"):
            for _ in range(int(head[1:])):
                self.read_reply()
        elif not head.startswith((b"+", b":", b"$")):
            fail("%s answered %r" % (self.name, head))

    def wait(self):
        try:
            return self.process.wait(PATIENCE)
        except subprocess.TimeoutExpired:
            self.kill()
            return fail("%s didn't end" % self.name)

    def kill(self):
        self.process.kill()
        self.process.wait()

    def count_lines(self):
        """What callgrind wrote of the process, which has ended."""
        with open(os.path.join(self.folder.name, COUNT), encoding="ascii", errors="replace") as lines:
            yield from lines


class Server(Answering):
    """`PROGRAM serve`, or redis-server without persistence, with one link to it."""

    def __init__(self, program, under=()):
        with socket.socket() as probe:
            probe.bind((HOST, 0))
            self.port = probe.getsockname()[1]
        line = [program, "serve", "--port", str(self.port)]
        if os.path.basename(program) == "redis-server":
            line = [program, "--port", str(self.port), "--bind", HOST, "--save", "", "--appendonly", "no"]
            if under:
                line += ["--hz", "1", "--dynamic-hz", "no"]
        super().__init__(line, under, stdin=subprocess.DEVNULL, stdout=subprocess.DEVNULL)
        try:
            self.link = self.connected()
        except BaseException:
            self.kill()
            raise
        self.link.settimeout(PATIENCE)
        self.link.setsockopt(socket.IPPROTO_TCP, socket.TCP_NODELAY, 1)
        self.replies = self.link.makefile("rb")
        self.send = self.link.sendall

    def connected(self):
        for _ in range(PATIENCE * 10):
            try:
                return socket.create_connection((HOST, self.port), timeout=1)
            except OSError:
                if self.process.poll() is not None:
                    break
                time.sleep(0.1)
        return fail("%s didn't start: status %s" % (self.name, self.process.returncode))

    def end(self):
        self.send(request("SHUTDOWN", "NOSAVE"))
        self.wait()
        self.link.close()


class Pipe(Answering):
    """`PROGRAM pipe`, which reads requests from a pipe that stays open."""

    def __init__(self, program, under=()):
        super().__init__([program, "pipe"], under, stdin=subprocess.PIPE, stdout=subprocess.PIPE)
        self.replies = self.process.stdout
        # A pipe has no time limit of its own; a killed program's replies end.
        self.limit = threading.Timer(LIMIT, self.process.kill)
        self.limit.daemon = True
        self.limit.start()

    def send(self, content):
        self.process.stdin.write(content)
        self.process.stdin.flush()

    def end(self):
        self.process.stdin.close()
        status = self.wait()
        if status != 0:
            fail("%s pipe ended with status %s" % (self.name, status))

    def kill(self):
        self.limit.cancel()
        super().kill()


def our_program():
    """The built program itself: its launcher is a script, whose shell callgrind would count."""
    launcher = os.path.join(TOP, "dflyd")
    if subprocess.run([launcher, "pipe"], stdin=subprocess.DEVNULL, check=False).returncode != 0:
        print("%s: skipped: no dflyd" % SCRIPT)
        sys.exit()
    return os.path.join(TOP, "crates/dflyd/out/dflyd")


def named_program(path):
    found = shutil.which(path)
    if found is None:
        fail("no executable %s" % path)
    with open(found, "rb") as content:
        if content.read(4) != b"\x7fELF":
            fail("%s is a script, whose shell callgrind would count; an executable is measured" % path)
    return os.path.abspath(found)

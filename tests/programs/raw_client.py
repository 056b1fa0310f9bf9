"""A client of a running kernel, written from ZeroMQ RFC 37 (ZMTP 3.1, mechanism NULL) and 'Messaging in Jupyter' 5.3.

It needs sockets, hmac and json alone, and no library of ZeroMQ or Jupyter. All that it waits for has a time limit.
Run as a program, it is a client that is to be killed:

usage: raw_client.py CONNECTION_FILE

It subscribes to everything, asks some times that a cell be executed, begins one more request, says that it is ready,
and waits. It reads nothing.
"""

import collections
import contextlib
import functools
import hmac
import itertools
import json
import os
import random
import re
import select
import socket
import struct
import subprocess
import sys
import tempfile
import threading
import time

# So many seconds anything may take: much more than it does on an idle machine.
PATIENCE = 60
DELIMITER = b"<IDS|MSG>"
MORE, LONG, COMMAND = 1, 2, 4
# signature, version 3.1, mechanism, not as a server, filler
GREETING = b"\xff" + bytes(8) + b"\x7f" + b"\3\1" + b"NULL".ljust(20, b"\0") + b"\0" + bytes(31)
CHANNELS = ("shell", "iopub", "control", "hb")
# The socket types of a client, and those that the kernel has to be.
SOCKET_TYPES = {"shell": b"DEALER", "iopub": b"SUB", "control": b"DEALER", "hb": b"REQ"}
KERNEL_TYPES = {"shell": b"ROUTER", "iopub": b"PUB", "control": b"ROUTER", "hb": b"REP"}
DATE = re.compile(r"\d{4}-\d\d-\d\dT\d\d:\d\d:\d\d\.\d{6}Z")
NUMBERS = itertools.count(1)


class Failure(Exception):
    """What isn't as it has to be."""


def check(is_well, what, found=None):
    """Refuses what isn't well."""
    if not is_well:
        raise Failure(what if found is None else f"{what}: {found!r:.500}")


def equal(found, wanted, what):
    """Refuses what isn't as wanted."""
    if found != wanted:
        raise Failure(f"{what} is\n  {found!r:.1500}, not\n  {wanted!r:.1500}")


def eventually(holds, what, patience=PATIENCE):
    """Waits until something holds."""
    end = time.monotonic() + patience
    while not holds():
        check(time.monotonic() < end, f"after {patience} s not yet {what}")
        time.sleep(0.01)


# ZMTP: RFC 37.


def frame_text(flags, body):
    """The octets of a frame."""
    if len(body) > 255:
        return bytes([flags | LONG]) + len(body).to_bytes(8, "big") + body
    return bytes([flags, len(body)]) + body


def message_text(frames):
    """The octets of a message."""
    return b"".join(frame_text(MORE, frame) for frame in frames[:-1]) + frame_text(0, frames[-1])


def command_text(name, rest=b""):
    """The octets of a command."""
    return frame_text(COMMAND, bytes([len(name)]) + name + rest)


def ping_text(context=b"", time_to_live=0):
    """The octets of a PING."""
    return command_text(b"PING", time_to_live.to_bytes(2, "big") + context)


def ready_text(socket_type, identity=b""):
    """The octets of the command READY."""
    body = b"\5READY"
    for name, value in ((b"Socket-Type", socket_type), (b"Identity", identity)):
        body += bytes([len(name)]) + name + len(value).to_bytes(4, "big") + value
    return frame_text(COMMAND, body)


def properties(body):
    """The properties of a READY, by name in lower case."""
    check(body[:6] == b"\5READY", "the first command is no READY", body)
    found, at = {}, 6
    while at < len(body):
        name = body[at + 1 : at + 1 + body[at]]
        at += 1 + len(name)
        size = int.from_bytes(body[at : at + 4], "big")
        check(name and at + 4 + size <= len(body), "READY is broken", body)
        found[name.lower()] = body[at + 4 : at + 4 + size]
        at += 4 + size
    return found


class Decoder:
    """Octets of traffic in, messages out; commands are kept apart."""

    def __init__(self):
        self.kept, self.frames, self.commands = bytearray(), [], []

    def feed(self, octets):
        """The messages, each as its frames, that these octets make whole."""
        kept, messages, at = self.kept, [], 0
        kept += octets
        while len(kept) - at >= 2:
            flags, head = kept[at], 9 if kept[at] & LONG else 2
            check(flags & ~(MORE | LONG | COMMAND) == 0 and flags & (MORE | COMMAND) != 5, "a frame's flags", flags)
            if len(kept) - at < head:
                break
            size = int.from_bytes(kept[at + 1 : at + head], "big")
            # The kernel has one spelling of a size.
            check((head == 2) == (size < 256), "a frame's long size", size)
            if len(kept) - at < head + size:
                break
            body = bytes(kept[at + head : at + head + size])
            at += head + size
            if flags & COMMAND:
                check(not self.frames, "a command inside a message", body)
                self.commands.append(body)
                continue
            self.frames.append(body)
            if not flags & MORE:
                messages.append(self.frames)
                self.frames = []
        del kept[:at]
        return messages


class Peer:
    """A connection to a port, which shakes hands where it is told to."""

    def __init__(self, port, socket_type=None, identity=b"", wanted=None, room=None, ip="127.0.0.1"):
        self.socket = socket.socket()
        self.socket.settimeout(PATIENCE)
        if room:
            self.socket.setsockopt(socket.SOL_SOCKET, socket.SO_RCVBUF, room)
        self.socket.connect((ip, port))
        self.socket.setsockopt(socket.IPPROTO_TCP, socket.TCP_NODELAY, 1)
        self.decoder, self.messages = Decoder(), collections.deque()
        if socket_type:
            self.write(GREETING + ready_text(socket_type, identity))
            self.meet(wanted)

    def meet(self, wanted):
        """Reads the kernel's part of the handshake."""
        greeting = b""
        while len(greeting) < 64:
            octets = self.socket.recv(64 - len(greeting))
            check(octets, "the connection ended inside the greeting", greeting)
            greeting += octets
        check(greeting[0] == 0xFF and greeting[9] == 0x7F, "the greeting's signature", greeting)
        check(greeting[10:33] == GREETING[10:33], "the greeting's version and mechanism", greeting)
        while not self.decoder.commands:
            self.read()
        found = properties(self.decoder.commands.pop(0))
        check(wanted is None or found.get(b"socket-type") == wanted, "the kernel's Socket-Type", found)

    def write(self, octets):
        """Writes octets."""
        self.socket.sendall(octets)

    def send(self, frames):
        """Writes a message."""
        self.write(message_text(frames))

    def read(self):
        """Reads what there is, or waits for it; refuses the connection's end."""
        octets = self.socket.recv(1 << 18)
        if not octets:
            raise Failure("the connection ended")
        self.messages.extend(self.decoder.feed(octets))

    def takes(self):
        """Reads what there is, and answers whether there was anything but the end."""
        try:
            self.read()
        except (Failure, ConnectionError):
            return False
        return True

    def receive(self):
        """The next message."""
        while not self.messages:
            self.read()
        return self.messages.popleft()

    def rest(self):
        """What messages are still to come, until the connection ends in some way."""
        try:
            while octets := self.socket.recv(1 << 18):
                self.messages.extend(self.decoder.feed(octets))
        except ConnectionError:
            pass
        rest = list(self.messages)
        self.messages.clear()
        return rest

    def pongs(self, count):
        """The contexts of the next so many PONGs; refuses any other command."""
        found = []
        while len(found) < count:
            while not self.decoder.commands:
                self.read()
            command = self.decoder.commands.pop(0)
            check(command[:5] == b"\4PONG", "a command that is no PONG", command)
            found.append(command[5:])
        return found

    def is_silent(self, seconds=0.2):
        """Whether nothing comes for a moment, and the connection stays."""
        if self.messages:
            return False
        self.socket.settimeout(seconds)
        try:
            self.read()
        except socket.timeout:
            return True
        finally:
            self.socket.settimeout(PATIENCE)
        return not self.messages

    def drained(self, seconds):
        """The octets that come until none do for a moment. They aren't looked at, but taken as fast as they come."""
        octets, end = bytearray(), time.monotonic() + PATIENCE
        self.socket.settimeout(seconds)
        try:
            while more := self.socket.recv(1 << 18):
                octets += more
                check(time.monotonic() < end, f"after {PATIENCE} s octets still come")
        except socket.timeout:
            return octets
        finally:
            self.socket.settimeout(PATIENCE)
        raise Failure("the connection ended")

    def close(self):
        """Closes the connection."""
        self.socket.close()

    def reset(self):
        """Closes the connection by a reset."""
        self.socket.setsockopt(socket.SOL_SOCKET, socket.SO_LINGER, struct.pack("ii", 1, 0))
        self.socket.close()


# Messaging in Jupyter: the wire protocol.

Message = collections.namedtuple("Message", "front header parent metadata content buffers")


def signature(key, parts):
    """The signature of a message's four parts; empty where there is no key."""
    return hmac.new(key.encode(), b"".join(parts), "sha256").hexdigest().encode() if key else b""


def header_of(msg_type, session="client", **others):
    """The header of a new request."""
    made = {"date": "2026-11-23T09:00:00.000000Z", "username": "Zoë", "version": "5.3"}
    return {"msg_id": f"asked {next(NUMBERS)}", "msg_type": msg_type, "session": session, **made, **others}


def request_frames(key, header, content, front=()):
    """The frames of a request."""
    content = content if isinstance(content, bytes) else json.dumps(content).encode()
    parts = [json.dumps(header).encode(), b"{}", b"{}", content]
    return [*front, DELIMITER, signature(key, parts), *parts]


def opened(key, frames):
    """A message of the kernel: its signature, and what its header has to have, are looked at."""
    check(DELIMITER in frames, "a message has no delimiter", frames)
    at = frames.index(DELIMITER)
    check(len(frames) >= at + 6, "a message has too few frames", frames)
    parts = frames[at + 2 : at + 6]
    equal(frames[at + 1], signature(key, parts), "a signature")
    header, parent, metadata, content = (json.loads(part) for part in parts)
    texts = {"msg_id", "msg_type", "session", "username", "date", "version"}
    check(all(isinstance(header.get(name), str) for name in texts), "a header", header)
    check(DATE.fullmatch(header["date"]) and header["version"] == "5.3", "a header", header)
    return Message(frames[:at], header, parent, metadata, content, frames[at + 6 :])


# The program.


@functools.cache
def own_ports():
    """Numbers of ports, in an order of this process's own, that the system gives to nobody who leaves it the choice,
    where it keeps some back."""
    given, last = 65_536, 65_535
    with contextlib.suppress(OSError), open("/proc/sys/net/ipv4/ip_local_port_range", encoding="ascii") as file:
        given, last = (int(it) for it in file.read().split())
    kept = [it for it in range(10_000, 65_536) if not given <= it <= last]
    ports = kept if len(kept) >= 1_000 else range(10_000, 65_536)
    return itertools.cycle(random.sample(ports, len(ports)))


PORTS_LOCK = threading.Lock()


def free_ports(count):
    """Numbers of ports that nobody listens on, and that neither a connection nor another call in this process gets
    before somebody does."""
    ports = []
    with PORTS_LOCK:
        for port in itertools.islice(own_ports(), 1_000):
            with contextlib.suppress(OSError), socket.create_server(("127.0.0.1", port)):
                ports.append(port)
            if len(ports) == count:
                return ports
    raise Failure(f"of a thousand ports {len(ports)} are free")


def connection_of(ports, key, ip="127.0.0.1"):
    """The content of a connection file."""
    made = {"transport": "tcp", "ip": ip, "signature_scheme": "hmac-sha256", "key": key, "stdin_port": 9}
    return made | {f"{channel}_port": port for channel, port in zip(CHANNELS, ports)}


def is_open(port, ip="127.0.0.1"):
    """Whether somebody listens on a port."""
    try:
        socket.create_connection((ip, port), PATIENCE).close()
    except ConnectionError:
        return False
    return True


def is_listening(port, ip="127.0.0.1"):
    """Whether somebody listens on a port, by what the system tells: a connection would take a descriptor and a thread
    of the kernel for a moment."""
    place = f"{socket.inet_aton(ip)[::-1].hex().upper()}:{port:04X}"
    with open("/proc/net/tcp", encoding="ascii") as file:
        return any(line.split()[1:4:2] == [place, "0A"] for line in file)


class Kernel:
    """A kernel that runs. Where nothing failed, it is shut down behind a test, and has to end as it should."""

    def __init__(self, program, key="Jefe", limit=None, ip="127.0.0.1"):
        self.program, self.key, self.limit, self.ip = program, key, limit, ip
        self.room = self.process = None
        # Whether a test has looked at its end, which isn't as it should be otherwise.
        self.is_ended = False

    def __enter__(self):
        for _ in range(10):
            self.start()
            eventually(lambda: self.process.poll() is not None or is_listening(self.port("hb"), self.ip), "ready")
            if self.process.poll() is None:
                return self
            status, told = self.process.returncode, self.told()
            self.room.cleanup()
            # A port that was free may be taken meanwhile.
            equal(status, 4, f"the status of a kernel that told {told}")
        raise Failure("no ports are left")

    def start(self):
        """Starts the program."""
        self.room = tempfile.TemporaryDirectory(prefix="jkernel-serving-")
        self.connection = connection_of(free_ports(4), self.key, self.ip)
        self.file = os.path.join(self.room.name, "connection.json")
        with open(self.file, "w", encoding="ascii") as file:
            json.dump(self.connection, file)
        with open(self.path("output"), "wb") as output, open(self.path("error"), "wb") as error:
            how = {"stdin": subprocess.DEVNULL, "stdout": output, "stderr": error, "preexec_fn": self.limit}
            self.process = subprocess.Popen([self.program, "serve", "-f", self.file], **how)

    def path(self, name):
        """The path of a file of this kernel."""
        return os.path.join(self.room.name, name)

    def told(self):
        """What it wrote on standard output and standard error."""
        octets = []
        for name in ("output", "error"):
            with open(self.path(name), "rb") as file:
                octets.append(file.read())
        return tuple(octets)

    def port(self, channel):
        """The number of a port."""
        return self.connection[f"{channel}_port"]

    def peer(self, channel, socket_type=None, identity=b"", room=None):
        """A connection to a port that has shaken hands."""
        its_type = socket_type or SOCKET_TYPES[channel]
        return Peer(self.port(channel), its_type, identity, KERNEL_TYPES[channel], room, self.ip)

    def listed(self, name):
        """How many entries a folder of the process has: `fd` or `task`."""
        return len(os.listdir(f"/proc/{self.process.pid}/{name}"))

    def counts(self):
        """How many file descriptors and threads it has."""
        return self.listed("fd"), self.listed("task")

    def rests(self, before):
        """Whether it has no more file descriptors, and no more threads, than before."""
        return all(now <= then for now, then in zip(self.counts(), before))

    def memory(self, name="VmRSS"):
        """Its resident memory in KiB, or another size that the system tells by this name."""
        with open(f"/proc/{self.process.pid}/status", encoding="ascii") as file:
            return int(re.search(rf"{name}:\s+(\d+)", file.read())[1])

    def processor_time(self):
        """For how many seconds its threads have run so far."""
        total = 0
        for thread in os.listdir(f"/proc/{self.process.pid}/task"):
            with open(f"/proc/{self.process.pid}/task/{thread}/schedstat", encoding="ascii") as file:
                total += int(file.read().split()[0])
        return total / 1e9

    def ends(self, status=0, told=(b"", b"")):
        """Waits until it ended, and refuses another status, or other words, than those that are wanted."""
        try:
            found = self.process.wait(PATIENCE)
        except subprocess.TimeoutExpired:
            raise Failure(f"it has not ended after {PATIENCE} s") from None
        equal((found, *self.told()), (status, *told), "status, standard output and standard error")

    def shut_down(self, told=(b"", b"")):
        """Asks on control for the end, by which it has told this."""
        peer = self.peer("control")
        header = header_of("shutdown_request")
        peer.send(request_frames(self.key, header, {"restart": False}))
        reply = opened(self.key, peer.receive())
        equal((reply.parent, reply.content), (header, {"restart": False, "status": "ok"}), "the reply to a shutdown")
        peer.close()
        self.ends(0, told)

    def __exit__(self, kind, _value, _trace):
        try:
            if kind is None and not self.is_ended:
                if self.process.poll() is None:
                    self.shut_down()
                self.ends()
            elif kind is not None and self.process.poll() is not None:
                print(f"the kernel ended with {self.process.returncode}, and told {self.told()}")
        finally:
            self.process.kill()
            self.process.wait()
            self.room.cleanup()


class Client:
    """A client of a kernel, with a connection to each port."""

    def __init__(self, kernel, identity=b"", room=None):
        self.kernel, self.key = kernel, kernel.key
        self.shell = kernel.peer("shell", identity=identity)
        self.control = kernel.peer("control", identity=identity)
        self.heart = kernel.peer("hb")
        self.iopub = kernel.peer("iopub", room=room)
        self.subscribe(b"")

    def __enter__(self):
        self.find()
        return self

    def __exit__(self, _kind, _value, _trace):
        for peer in (self.shell, self.control, self.heart, self.iopub):
            peer.close()

    def subscribe(self, topic):
        """Asks for the publications of a topic."""
        self.iopub.send([b"\1" + topic])

    def find(self):
        """Waits until publications come: nothing says when a subscription has come into effect."""
        end = time.monotonic() + PATIENCE
        found = False
        while not found:
            check(time.monotonic() < end, "no publications come")
            header = self.ask("kernel_info_request", {})
            self.reply(header)
            found = not self.iopub.is_silent(0.05)
        # Each block until now may have begun before the subscription came into effect, if others ask, too.
        header = self.ask("kernel_info_request", {})
        self.reply(header)
        while True:
            message = opened(self.key, self.iopub.receive())
            if message.parent == header and message.content == {"execution_state": "idle"}:
                return

    def ask(self, msg_type, content, channel="shell", **others):
        """Sends a request, and answers its header."""
        header = header_of(msg_type, **others)
        getattr(self, channel).send(request_frames(self.key, header, content))
        return header

    def execute(self, code, **others):
        """Asks that a cell be executed, and answers the request's header."""
        return self.ask("execute_request", {"code": code}, **others)

    def receive(self, peer):
        """The next message of a peer. Publications that come meanwhile are taken, lest the kernel wait for that."""
        poll = select.poll()
        for it in {peer, self.iopub}:
            poll.register(it.socket, select.POLLIN)
        while not peer.messages:
            ready = [number for number, _ in poll.poll(PATIENCE * 1_000)]
            check(ready, f"nothing came for {PATIENCE} s")
            if peer.socket.fileno() in ready:
                peer.read()
            if self.iopub is not peer and self.iopub.socket.fileno() in ready and not self.iopub.takes():
                poll.unregister(self.iopub.socket)
        return peer.messages.popleft()

    def reply(self, header, channel="shell"):
        """The content of the next reply, which has to be that to this request."""
        message = opened(self.key, self.receive(getattr(self, channel)))
        equal(message.parent, header, "the parent of a reply")
        wanted = ([], header["msg_type"].replace("_request", "_reply"), {}, [])
        equal((message.front, message.header["msg_type"], message.metadata, message.buffers), wanted, "a reply")
        return message.content

    def block(self, header):
        """What is published of a request, from busy to idle; messages of other requests are left out."""
        block = []
        while True:
            message = opened(self.key, self.iopub.receive())
            if message.parent != header:
                continue
            check(message.metadata == {} and not message.buffers, "a publication", message)
            block.append((message.front, message.header["msg_type"], message.content))
            if message.content == {"execution_state": "idle"}:
                return block

    def runs(self, code, count, value):
        """Has a cell executed, and refuses all but its publications and its reply."""
        header = self.execute(code)
        equal(self.reply(header), done(count), "a reply")
        equal(self.block(header), block_of(entered(code, count), result(value, count)), "a block")


# What is published: the topic, the type and the content; and contents of replies.


def published(msg_type, content, topic=None):
    """A publication."""
    return [(topic or msg_type).encode()], msg_type, content


def status(state):
    """A status."""
    return published("status", {"execution_state": state})


def entered(code, count):
    """That a cell is executed."""
    return published("execute_input", {"code": code, "execution_count": count})


def written(text):
    """What a cell wrote on standard output."""
    return published("stream", {"name": "stdout", "text": text}, "stream.stdout")


def result(text, count):
    """The value of a cell."""
    return published("execute_result", {"data": {"text/plain": text}, "execution_count": count, "metadata": {}})


def failure(ename, evalue):
    """That a cell failed."""
    return published("error", fault(ename, evalue))


def fault(ename, evalue):
    """What is told of an error."""
    return {"ename": ename, "evalue": evalue, "traceback": [f"{ename}: {evalue}"]}


# The content of a kernel_info_reply.
INFO = {
    "status": "ok",
    "protocol_version": "5.3",
    "implementation": "jkernel",
    "implementation_version": "1.0",
    "language_info": {"name": "sharith", "version": "1.0", "mimetype": "text/plain", "file_extension": ".sha"},
    "banner": "Shell arithmetic in 64 bits",
    "help_links": [],
}


def block_of(*publications):
    """All that is published of a request."""
    return [status("busy"), *publications, status("idle")]


def done(count):
    """The reply where a cell ran."""
    return {"status": "ok", "execution_count": count, "payload": [], "user_expressions": {}}


def failed(ename, evalue, count):
    """The reply where a cell failed."""
    return {"status": "error", "execution_count": count, **fault(ename, evalue)}


def to_be_killed(path):
    """Subscribes, asks for executions without reading anything, and begins one more request."""
    with open(path, encoding="ascii") as file:
        connection = json.load(file)
    iopub = Peer(connection["iopub_port"], b"SUB")
    iopub.send([b"\1"])
    shell = Peer(connection["shell_port"], b"DEALER")
    for _ in range(30):
        header = header_of("execute_request", session=f"process {os.getpid()}")
        text = message_text(request_frames(connection["key"], header, {"code": "1; 2; 3"}))
        shell.write(text)
    shell.write(text[: len(text) // 2])
    print("ready", flush=True)
    time.sleep(PATIENCE)


if __name__ == "__main__":
    to_be_killed(sys.argv[1])

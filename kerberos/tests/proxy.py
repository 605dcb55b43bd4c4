"""A proxy on the loopback between a sender and a receiver, which alters one message on its way:
kprop's messages over TCP, and kpasswd's over UDP."""
import socket
import threading

CUT = None          # among the bytes that an alteration passes on: here the connection ends
LIMIT = 30          # seconds in which something has to move
POLL = 0.05         # seconds after which a thread looks whether the proxy has ended
STALL = 0.7         # the same after a message after which both ends wait, as its case says


# ---- values in DER

def header(frame, at):
    """Of the value at an offset: where its last byte of length is, and where its contents end."""
    first = frame[at + 1]
    digits = first & 0x7f if first & 0x80 else 0
    size = int.from_bytes(frame[at + 2:at + 2 + digits], "big") if digits else first
    return at + 1 + digits, at + 2 + digits + size


def find(frame, path):
    """The offset of a value: the first with each tag of the path, from outside to inside."""
    at, end = 0, len(frame)
    for depth, tag in enumerate(path):
        while at < end and frame[at] != tag:
            at = header(frame, at)[1]
        if at >= end:
            raise LookupError(f"no value {bytes(path).hex()}")
        if depth + 1 < len(path):
            last_of_length, end = header(frame, at)
            at = last_of_length + 1
    return at


def offset_of(frame, path, part):
    """The offset of one byte of a value: part is 'tag', 'length', or the index of a byte in its
    contents, from the end if negative, or 'middle'."""
    at = find(frame, path)
    last_of_length, end = header(frame, at)
    start = last_of_length + 1
    if part == "tag":
        return at
    if part == "length":
        return last_of_length
    if part == "middle":
        return (start + end) // 2
    return start + part if part >= 0 else end + part


# ---- how messages lie on the wire

class Stream:
    """Over TCP: four bytes of length, and the message."""

    @staticmethod
    def parts(frame):
        return frame[:4], frame[4:]

    @staticmethod
    def joined(_, message):
        return len(message).to_bytes(4, "big") + message


class Datagram:
    """kpasswd's (RFC 3244): length, version, length of AP-REQ or AP-REP, this, and KRB-PRIV."""

    @staticmethod
    def parts(frame):
        start = 6 + int.from_bytes(frame[4:6], "big")
        return frame[:start], frame[start:]

    @staticmethod
    def joined(head, message):
        return (len(head) + len(message)).to_bytes(2, "big") + head[2:] + message


# ---- what is done to the messages

class Alteration:
    """What is done to the messages named `name`. `seen` has those that passed before, by name, and
    of another session by 'earlier' and name; `held` is kept from message to message."""

    def applied(self, _name, frame, _wire, _seen):
        return [frame]

    def pieces(self, name, is_meant, frame, wire, seen, _held):
        return self.applied(name, frame, wire, seen) if is_meant else [frame]


class Flip(Alteration):
    """Flips the bits of a mask in one byte of a value in the message."""

    def __init__(self, path, part, mask=1):
        self.path, self.part, self.mask = path, part, mask

    def applied(self, _name, frame, wire, _seen):
        head, message = wire.parts(frame)
        altered = bytearray(message)
        altered[offset_of(message, self.path, self.part)] ^= self.mask
        return [head + bytes(altered)]


class FlipHead(Alteration):
    """Flips bits in what stands before the message."""

    def __init__(self, offset, mask):
        self.offset, self.mask = offset, mask

    def applied(self, _name, frame, _wire, _seen):
        altered = bytearray(frame)
        altered[self.offset] ^= self.mask
        return [bytes(altered)]


class Length(Alteration):
    """Gives the message another length before it, and leaves the message."""

    def __init__(self, other):
        self.other = other

    def applied(self, _name, frame, _wire, _seen):
        return [self.other(len(frame) - 4).to_bytes(4, "big") + frame[4:]]


class Border(Alteration):
    """Gives kpasswd's AP-REQ or AP-REP another length before it, so that KRB-PRIV starts there."""

    def __init__(self, more):
        self.more = more

    def applied(self, _name, frame, _wire, _seen):
        size = int.from_bytes(frame[4:6], "big") + self.more
        return [frame[:4] + size.to_bytes(2, "big") + frame[6:]]


class Add(Alteration):
    """Adds a byte after the message, with lengths that are right."""

    def applied(self, _name, frame, wire, _seen):
        head, message = wire.parts(frame)
        return [wire.joined(head, message + b"\0")]


class Repeat(Alteration):
    def applied(self, _name, frame, _wire, _seen):
        return [frame, frame]


class Drop(Alteration):
    """Drops the first message with the name."""

    def pieces(self, name, is_meant, frame, wire, seen, held):
        if not is_meant or "dropped" in held:
            return [frame]
        held["dropped"] = frame
        return []


class Exchange(Alteration):
    """The message comes after the next one."""

    def pieces(self, name, is_meant, frame, wire, seen, held):
        if is_meant:
            held["first"] = frame
            return []
        return [frame, held.pop("first")] if "first" in held else [frame]


class Replace(Alteration):
    """Another message comes in its place: the whole of it, or under this one's head."""

    def __init__(self, other, whole=True):
        self.other, self.whole = other, whole

    def applied(self, _name, frame, wire, seen):
        other = seen[self.other]
        if self.whole:
            return [other]
        return [wire.joined(wire.parts(frame)[0], wire.parts(other)[1])]


class Cut(Alteration):
    """Passes on a beginning of the message, and ends the connection."""

    def __init__(self, kept):
        self.kept = kept

    def applied(self, _name, frame, _wire, _seen):
        return [frame[:self.kept(len(frame))], CUT]


# ---- the proxies

def read_exactly(source, count):
    """The bytes, or fewer at the end of the connection."""
    taken = b""
    while len(taken) < count:
        piece = source.recv(count - len(taken))
        if not piece:
            break
        taken += piece
    return taken


def listener(address):
    return socket.create_server((address, 0))


def quietly(call, *given):
    """A call on a socket whose other end may be gone."""
    try:
        call(*given)
        return True
    except OSError:
        return False


class TcpProxy(threading.Thread):
    """Between one kprop and one kpropd. `receiver` is the socket for kpropd's standard input."""

    def __init__(self, address, blocks, case):
        super().__init__(daemon=True)
        self.case, self.seen, self.held, self.met, self.hung = case, {}, {}, 0, False
        self.names = {3: "size", 4: "block 1", 5: "block 2", 3 + blocks // 2: "middle block",
                      2 + blocks: "block before the last", 3 + blocks: "last block"}
        self.listening = listener(address)
        self.port = self.listening.getsockname()[1]
        with listener(address) as second:
            self.server = socket.create_connection(second.getsockname())
            self.receiver = second.accept()[0]
        self.client = None

    def run(self):
        self.listening.settimeout(LIMIT)
        try:
            self.client = self.listening.accept()[0]
        except OSError:
            self.hung = True
            return
        self.client.settimeout(LIMIT)
        self.server.settimeout(LIMIT)
        back = threading.Thread(target=self.pump, daemon=True,
                                args=(self.server, self.client, {2: "confirmation"}, 1))
        back.start()
        self.pump(self.client, self.server, self.names, 0)
        back.join()

    def pump(self, source, target, names, before):
        """Passes messages on until the connection ends. What nobody takes is read all the same,
        so that the sender isn't ended by a signal."""
        try:
            quietly(target.sendall, read_exactly(source, before))
            index = 0
            while frame := self.read_frame(source):
                self.pass_on(names.get(index), frame, target)
                index += 1
        except TimeoutError:
            self.hung = not (self.case.stalls and self.met)
            self.cut()
        except OSError:
            pass
        quietly(target.shutdown, socket.SHUT_WR)

    def read_frame(self, source):
        size = read_exactly(source, 4)
        return size + read_exactly(source, int.from_bytes(size, "big"))

    def pass_on(self, name, frame, target):
        is_meant = name == self.case.message
        self.met += is_meant
        if is_meant and self.case.stalls:
            self.client.settimeout(STALL)
        if name:
            self.seen[name] = frame
        for piece in self.case.alteration.pieces(name, is_meant, frame, Stream, self.seen,
                                                 self.held):
            if piece is CUT:
                self.cut()
            else:
                quietly(target.sendall, piece)

    def cut(self):
        """Neither end gets more; what the sender sends is still taken from it."""
        quietly(self.server.shutdown, socket.SHUT_RDWR)
        quietly(self.client.shutdown, socket.SHUT_WR)

    def close(self):
        for it in (self.listening, self.server, self.receiver, self.client):
            if it:
                it.close()


class UdpProxy(threading.Thread):
    """Between one kpasswd and kadmind. `seen` has the messages of an earlier session."""

    def __init__(self, server_port, case, seen):
        super().__init__(daemon=True)
        self.case, self.seen, self.held, self.met, self.ended = case, seen, {}, 0, False
        self.listening = socket.socket(type=socket.SOCK_DGRAM)
        self.listening.bind(("127.0.0.1", 0))
        self.port = self.listening.getsockname()[1]
        self.server = socket.socket(type=socket.SOCK_DGRAM)
        self.server.connect(("127.0.0.1", server_port))
        for it in (self.listening, self.server):
            it.settimeout(POLL)
        self.client = None
        self.back = threading.Thread(target=self.pump_back, daemon=True)

    def start(self):
        super().start()
        self.back.start()

    def run(self):
        while not self.ended:
            try:
                frame, self.client = self.listening.recvfrom(65535)
            except TimeoutError:
                continue
            for piece in self.altered("request", frame):
                quietly(self.server.send, piece)
            if self.case.stalls and self.met:
                self.listening.close()      # kpasswd sends again, and learns that nobody is there
                return

    def pump_back(self):
        while not self.ended:
            try:
                frame = self.server.recv(65535)
            except (ConnectionError, TimeoutError):
                continue
            for piece in self.altered("reply", frame):
                quietly(self.listening.sendto, piece, self.client)

    def altered(self, name, frame):
        if self.ended:
            return []
        is_meant = name == self.case.message
        self.met += is_meant
        self.seen[name] = frame
        pieces = self.case.alteration.pieces(name, is_meant, frame, Datagram, self.seen, self.held)
        return [piece for piece in pieces if piece is not CUT]

    def close(self):
        self.ended = True
        for thread in (self, self.back):
            thread.join(2)
        self.listening.close()
        self.server.close()

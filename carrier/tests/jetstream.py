"""Requests to NATS over a plain socket: no client is needed.

    jetstream.py HOST PORT info SHARD       what a shard's stream is, as JSON
    jetstream.py HOST PORT frames SHARD     each message that it has: OFFSET SESSION FRAME
    jetstream.py HOST PORT takes SHARD      publishes a frame of nobody until it is confirmed
    jetstream.py HOST PORT delete SHARD OFFSET      deletes a frame
    jetstream.py HOST PORT purge SHARD      deletes all frames
    jetstream.py HOST PORT unmake SHARD     deletes the stream; of the receipts with the word RECEIPTS
    jetstream.py HOST PORT repeat SHARD TIMES       publishes each frame so many times more

The status is 0 if the answer is whole.
"""
import base64
import contextlib
import json
import os
import socket
import subprocess
import sys
import time

PATIENCE = 6        # seconds for an answer
TAKING = 10         # seconds for a frame to be confirmed
LOOKING = 120       # seconds for all frames
NOT_THERE = 10037   # of a message: the stream has none at this offset
INBOX = "_answer.here"
HELLO = b'CONNECT {"verbose":false,"headers":true,"no_responders":true}\r\n'


class Connection:
    """One connection to a node."""

    def __init__(self, port, host="127.0.0.1", patience=PATIENCE):
        self.socket = socket.create_connection((host, port), patience)
        self.file = self.socket.makefile("rwb")
        self.file.readline()
        self.file.write(HELLO)

    def subscribe(self, subject):
        self.file.write(b"SUB %s 1\r\nPING\r\n" % subject.encode())
        self.file.flush()

    def publish(self, subject, body, reply=""):
        self.file.write(b"PUB %s %s %d\r\n%s\r\nPING\r\n"
                        % (subject.encode(), reply.encode(), len(body), body))
        self.file.flush()

    def next(self):
        """The next message: what its first line says, and its bytes with their headers."""
        while True:
            line = self.file.readline()
            if line.startswith((b"MSG", b"HMSG")):
                words = line.decode().split()
                body = self.file.read(int(words[-1]))
                self.file.read(2)
                return words, body
            if line.startswith(b"PING"):
                self.file.write(b"PONG\r\n")
                self.file.flush()
            if not line:
                raise OSError("the server has closed the connection")

    def close(self):
        self.file.close()
        self.socket.close()

    def ask(self, subject, body=b""):
        """What is answered to one request; the inbox is subscribed to."""
        self.publish(subject, body, INBOX)
        words, answer = self.next()
        if words[0] == "HMSG":
            raise OSError(f"{subject}: nobody answers")
        return json.loads(answer)


    def offsets(self, shard):
        """Where the stream of a shard may have frames."""
        state = member(self.ask(f"$JS.API.STREAM.INFO.KRB_{shard}"), "state")
        return range(max(1, state["first_seq"]), state["last_seq"] + 1)     # 0: it is empty

    def frame_at(self, shard, offset):
        """The session and the frame there, or None."""
        answer = self.ask(f"$JS.API.STREAM.MSG.GET.KRB_{shard}", b'{"seq":%d}' % offset)
        if answer.get("error", {}).get("err_code") == NOT_THERE:
            return None
        message = member(answer, "message")
        return message["subject"].rsplit(".", 1)[1], base64.b64decode(message.get("data", ""))


def request(port, subject, host="127.0.0.1", patience=PATIENCE, **body):
    """What JetStream answers to one request of its interface."""
    with contextlib.closing(Connection(port, host, patience)) as connection:
        connection.subscribe(INBOX)
        return connection.ask(f"$JS.API.{subject}", json.dumps(body).encode() if body else b"")


def answers(port, subject, patience, **body):
    """Whether JetStream answers a request, and by no error, within so many seconds."""
    try:
        return "error" not in request(port, subject, patience=patience, **body)
    except OSError:
        return False


def make_stream(port, shard, **more):
    """Makes the stream of a shard as somebody else would."""
    return request(port, f"STREAM.CREATE.KRB_{shard}", name=f"KRB_{shard}",
                   subjects=[f"krb.{shard}.*"], storage="file", retention="limits",
                   num_replicas=1, **more)


def stream(port, shard):
    """What the stream of a shard is."""
    return request(port, f"STREAM.INFO.KRB_{shard}")


def frames(port, shard, host="127.0.0.1", patience=PATIENCE):
    """Each message that the stream of a shard has, asked for by its offset: the offset, the session
    and the frame. A fault if one can't be asked for."""
    found = []
    with contextlib.closing(Connection(port, host, patience)) as connection:
        connection.subscribe(INBOX)
        for offset in connection.offsets(shard):
            frame = connection.frame_at(shard, offset)
            if frame:
                found.append((offset, *frame))
    return found


def member(answer, name):
    if name not in answer:
        raise OSError(f"no {name}: {answer}")
    return answer[name]


def is_taken(port, shard, host="127.0.0.1", patience=PATIENCE):
    """Whether the stream of a shard confirms a frame, of a session that nobody has."""
    with contextlib.suppress(OSError), contextlib.closing(Connection(port, host, patience)) as connection:
        connection.subscribe(INBOX)
        return connection.ask(f"krb.{shard}.nobody", b"nobody's").get("seq", 0) > 0
    return False


def takes(port, shard, host="127.0.0.1"):
    """The same, tried for some seconds."""
    until = time.monotonic() + TAKING
    while not is_taken(port, shard, host):
        if time.monotonic() > until:
            return False
        time.sleep(0.2)
    return True


def repeat(port, shard, times, host="127.0.0.1"):
    """Publishes each frame of a shard so many times more, however slow that makes the node."""
    found = frames(port, shard, host, LOOKING)
    with contextlib.closing(Connection(port, host, LOOKING)) as connection:
        for _, name, frame in found * times:
            connection.file.write(b"PUB krb.%d.%s %d\r\n%s\r\n"
                                  % (shard, name.encode(), len(frame), frame))
        connection.file.write(b"PING\r\n")
        connection.file.flush()
        while not connection.file.readline().startswith(b"PONG"):
            pass


def run(host, port, what, *more, command=()):
    """What this program prints, where `command` runs it; None if the answer isn't whole."""
    words = [*command, sys.executable, os.path.abspath(__file__), host, str(port), what,
             *map(str, more)]
    try:
        return subprocess.run(words, check=True, stdout=subprocess.PIPE, stderr=subprocess.DEVNULL,
                              text=True, timeout=LOOKING).stdout
    except subprocess.SubprocessError:
        return None


def succeeds(port, subject, host, **body):
    return request(port, subject, host, **body).get("success", False)


def main(host, port, what, shard, *more):
    port = int(port)
    if what == "delete":
        return 0 if succeeds(port, f"STREAM.MSG.DELETE.KRB_{shard}", host, seq=int(more[0])) else 1
    if what in ("purge", "unmake"):
        word = {"purge": "PURGE", "unmake": "DELETE"}[what]
        return 0 if succeeds(port, f"STREAM.{word}.KRB_{shard}", host) else 1
    if what == "info":
        print(json.dumps(request(port, f"STREAM.INFO.KRB_{shard}", host=host)))
    elif what == "frames":
        for offset, name, frame in frames(port, int(shard), host):
            print(offset, name, frame.hex())
    elif what == "repeat":
        repeat(port, int(shard), int(more[0]), host)
    else:
        return 0 if takes(port, int(shard), host) else 1
    return 0


if __name__ == "__main__":
    sys.exit(main(*sys.argv[1:]))

"""The servers of the carrier's tests, on the loopback: JetStream of one or three nodes, PostgreSQL."""
import contextlib
import glob
import os
import random
import shutil
import signal
import socket
import subprocess
import tempfile
import time

PATIENCE = 30       # seconds for a server to answer
ELECTION = 3        # seconds until three nodes have a leader


@contextlib.contextmanager
def new_folder():
    """A folder for a while, in which a server under another user may have another."""
    with tempfile.TemporaryDirectory() as made:
        os.chmod(made, 0o755)
        yield made


def free_ports(count):
    """So many ports of the loopback at which nothing listens."""
    sockets = [socket.socket() for _ in range(count)]
    for it in sockets:
        it.bind(("127.0.0.1", 0))
    ports = [it.getsockname()[1] for it in sockets]
    for it in sockets:
        it.close()
    return ports


def free_base(offsets):
    """A port below those that systems give, so that nothing listens at it and these offsets."""
    while True:
        base = random.randrange(20000, 30000)
        if not any(is_open(base + it) for it in offsets):
            return base


def processes_with(word):
    """The command lines of processes that have this word."""
    found = []
    for path in glob.glob("/proc/[0-9]*/cmdline"):
        try:
            with open(path, "rb") as file:
                line = file.read().replace(b"\0", b" ").decode(errors="replace")
        except OSError:
            continue        # it has ended
        found += [line] if word in line else []
    return found


def with_children(process):
    """The numbers of a process and its children."""
    with open(f"/proc/{process}/task/{process}/children", encoding="ascii") as file:
        return [process, *map(int, file.read().split())]


def connect(port):
    return socket.create_connection(("127.0.0.1", port), PATIENCE)


def is_open(port):
    """Whether something listens at a port of the loopback."""
    try:
        connect(port).close()
        return True
    except OSError:
        return False


def await_port(port):
    until = time.monotonic() + PATIENCE
    while not is_open(port):
        if time.monotonic() > until:
            raise RuntimeError(f"nothing listens at port {port}")
        time.sleep(0.05)


def ask(where, sql, seconds=None):
    """The rows of PostgreSQL's answer, of columns without tabs."""
    done = subprocess.run(["psql", "-qAtF", "\t", where, "-c", sql], check=True, stdout=subprocess.PIPE,
                          stderr=subprocess.DEVNULL, text=True, timeout=seconds)
    return [line.split("\t") for line in done.stdout.splitlines()]


class Nats:
    """JetStream; its nodes may be killed and started again."""

    def __init__(self, folder, nodes, config=""):
        """With further lines of the nodes' configuration."""
        self.folder, self.nodes, self.config, self.running = folder, nodes, config, {}
        ports = free_ports(2 * nodes)
        self.ports, self.routes = ports[:nodes], ports[nodes:]
        self.where = ",".join(f"nats://127.0.0.1:{port}" for port in self.ports)
        for node in range(nodes):
            self.write(node)
            self.start(node)
        for port in self.ports:
            await_port(port)
        time.sleep(ELECTION if nodes > 1 else 0.3)

    def write(self, node):
        path = f"{self.folder}/nats{node}"
        text = (f'server_name: n{node}\nlisten: "127.0.0.1:{self.ports[node]}"\n'
                f'jetstream {{ store_dir: "{path}", max_file: 20GB, max_mem: 1GB }}\n')
        if self.nodes > 1:
            routes = ", ".join(f'"nats://127.0.0.1:{port}"' for port in self.routes)
            text += (f'cluster {{ name: test, listen: "127.0.0.1:{self.routes[node]}",'
                     f' routes: [{routes}] }}\n')
        with open(path + ".conf", "w", encoding="utf-8") as file:
            file.write(text + self.config)

    def start(self, node):
        path = f"{self.folder}/nats{node}"
        self.running[node] = subprocess.Popen(
            ["nats-server", "-c", path + ".conf", "-l", path + ".log"],
            stdout=subprocess.DEVNULL, stderr=subprocess.DEVNULL)

    def kill(self, node):
        self.running[node].kill()
        self.running[node].wait()

    def stop(self):
        for node in self.running:
            self.kill(node)

    close = stop        # for contextlib.closing


class Postgres:
    """One server, which is a child of this process under the user `postgres` where that is root."""

    def __init__(self, folder):
        self.data, self.port = f"{folder}/postgresql", free_ports(1)[0]
        self.bin = max(glob.glob("/usr/lib/postgresql/*/bin"))
        self.user = {"user": "postgres", "group": "postgres", "extra_groups": []}
        os.makedirs(self.data, 0o700)
        if os.geteuid() == 0:
            shutil.chown(self.data, "postgres", "postgres")
        else:
            self.user = {}
        how = {"cwd": "/", "stdin": subprocess.DEVNULL, "stdout": subprocess.DEVNULL, **self.user}
        subprocess.run([f"{self.bin}/initdb", "-D", self.data, "-U", "postgres", "-A", "trust",
                        "--no-sync"], check=True, **how)
        self.how = how
        self.start()
        await_port(self.port)
        self.where = f"postgresql://postgres@127.0.0.1:{self.port}/postgres"
        self.await_query()

    def start(self):
        self.server = subprocess.Popen(
            [f"{self.bin}/postgres", "-D", self.data, "-p", str(self.port),
             "-c", "listen_addresses=127.0.0.1", "-c", "unix_socket_directories=",
             "-c", "shared_buffers=256MB", "-c", "max_wal_size=2GB"],
            stderr=subprocess.DEVNULL, **self.how)

    def signal_all(self, number):
        """To the server and each of its processes."""
        for process in with_children(self.server.pid):
            os.kill(process, number)

    @contextlib.contextmanager
    def stopped(self):
        """It doesn't answer meanwhile. A server that is stopped takes no signal to end."""
        self.signal_all(signal.SIGSTOP)
        try:
            yield
        finally:
            self.signal_all(signal.SIGCONT)

    def restart(self, seconds):
        """Ends it at once, and starts it again after so many seconds."""
        self.stop()
        time.sleep(seconds)
        self.start()
        await_port(self.port)
        self.await_query()

    def await_query(self):
        until = time.monotonic() + PATIENCE
        while True:
            try:
                return self.ask("SELECT 1")
            except subprocess.CalledProcessError:
                if time.monotonic() > until:
                    raise
                time.sleep(0.1)

    def ask(self, sql):
        return ask(self.where, sql)

    def stop(self):
        if self.server.poll() is None:
            self.server.send_signal(signal.SIGQUIT)     # at once
            self.server.wait()

    close = stop

"""A realm of MIT's programs on the loopback, in a temporary folder: its KDC, and runs of kprop to
kpropd and of kpasswd to kadmind. What is started here is ended here."""
import filecmp
import os
import shutil
import socket
import subprocess
import time

REALM = "KRBRELAY.TEST"
CIPHERS = {17: "aes128-cts-hmac-sha1-96", 18: "aes256-cts-hmac-sha1-96"}
PRINCIPALS = 2000
GIVEN = ("K", "krbtgt", "kadmin", "kiprop")     # the first parts of a realm's own principals
FOLDERS = ["/usr/sbin", "/usr/bin", "/sbin", "/bin"]

CLIENT = """[libdefaults]
  default_realm = {realm}
  dns_lookup_kdc = false
  dns_lookup_realm = false
  dns_canonicalize_hostname = false
  rdns = false
  qualify_shortname = ""
  permitted_enctypes = {ciphers}
[realms]
  {realm} = {{
    kdc = 127.0.0.1:{kdc}
    admin_server = 127.0.0.1:{kadmin}
    kpasswd_server = 127.0.0.1:{kpasswd}
  }}
[logging]
  default = FILE:{folder}/log
"""
SERVER = """[kdcdefaults]
  kdc_listen = 127.0.0.1:{kdc}
  kdc_tcp_listen = 127.0.0.1:{kdc}
[realms]
  {realm} = {{
    database_name = {database}
    key_stash_file = {folder}/stash
    acl_file = {folder}/kadm5.acl
    kadmind_listen = 127.0.0.1:{kadmin}
    kpasswd_listen = 127.0.0.1:{kpasswd}
    master_key_type = aes256-cts-hmac-sha1-96
    supported_enctypes = aes256-cts-hmac-sha1-96:normal aes128-cts-hmac-sha1-96:normal
  }}
"""


def free_port():
    """A port above 1023 that is free for TCP and UDP."""
    while True:
        with socket.socket() as tcp, socket.socket(type=socket.SOCK_DGRAM) as udp:
            tcp.bind(("127.0.0.1", 0))
            port = tcp.getsockname()[1]
            try:
                udp.bind(("127.0.0.1", port))
                return port
            except OSError:
                continue


def write(path, text):
    with open(path, "w", encoding="utf-8") as file:
        file.write(text)


def read(path):
    if not os.path.exists(path):
        return ""
    with open(path, encoding="utf-8", errors="replace") as file:
        return file.read()


class Realm:
    """The realm. The library of a sender or receiver is preloaded where its path is given."""

    def __init__(self, folder):
        self.folder = folder
        self.host = socket.gethostname()
        self.ports = {name: free_port() for name in ("kdc", "kadmin", "kpasswd", "kpropd")}
        self.started, self.password, self.runs = [], "first", 0

    def path(self, name):
        return os.path.join(self.folder, name)

    def write_client(self, name, ciphers, **ports):
        values = {**self.ports, **ports}
        write(self.path(name), CLIENT.format(realm=REALM, ciphers=ciphers, folder=self.folder,
                                             **values))

    def write_files(self):
        for etype, cipher in CIPHERS.items():
            self.write_client(f"krb5-{etype}", cipher)
        self.write_client("krb5-server", " ".join(CIPHERS.values()))
        for name in ("master", "replica"):
            os.makedirs(self.path(name))
            write(self.path(f"kdc-{name}"), SERVER.format(
                realm=REALM, folder=self.folder, database=self.path(f"{name}/principal"),
                **self.ports))
        write(self.path("kadm5.acl"), f"*/admin@{REALM} *\n")
        write(self.path("kpropd.acl"), f"host/{self.host}@{REALM}\n")

    def environment(self, client="krb5-server", server="kdc-master", library=None, log=None,
                    cache="none:", captured=None):
        env = {"PATH": ":".join([self.path("bin"), *FOLDERS]), "KRB5_CONFIG": self.path(client), "LC_ALL": "C",
               "KRB5_KDC_PROFILE": self.path(server), "KRB5RCACHENAME": cache,
               "KRB5CCNAME": "FILE:" + self.path("cc")}
        if library and log:
            env.update(LD_PRELOAD=library, KRBRELAY_LOG=log)
        if library and captured:
            env.update(LD_PRELOAD=library, KRBRELAY_CAPTURE=captured)
        return env

    def run(self, words, given="", limit=60, cwd=None, **how):
        return subprocess.run(words, input=given, env=self.environment(**how), text=True, cwd=cwd,
                              check=False, timeout=limit, stdout=subprocess.PIPE,
                              stderr=subprocess.STDOUT, errors="replace")

    def must(self, words, **how):
        done = self.run(words, **how)
        if done.returncode:
            raise RuntimeError(f"{' '.join(words)}: {done.stdout[-500:]}")

    def start(self, words, name, ready, **how):
        """Starts a program, and waits until its output says that it is ready."""
        log = self.path(name)
        with open(log, "wb") as output:
            process = subprocess.Popen(words, env=self.environment(**how), stdout=output,
                                       stdin=subprocess.DEVNULL, stderr=subprocess.STDOUT)
        self.started.append(process)
        for _ in range(200):
            if ready in read(log):
                return process
            if process.poll() is not None:
                break
            time.sleep(0.05)
        raise RuntimeError(f"{words[0]} isn't ready: {read(log)}")

    def stop(self, process):
        process.terminate()
        try:
            process.wait(5)
        except subprocess.TimeoutExpired:
            process.kill()
            process.wait()
        self.started.remove(process)

    def end(self):
        for process in list(self.started):
            self.stop(process)

    # ---- the databases

    def dump(self, name, server="kdc-master"):
        self.must(["kdb5_util", "-r", REALM, "dump", self.path(name)], server=server)

    def create(self):
        """The master's database, its dump, a dump with one more principal, and a replica."""
        self.write_files()
        self.must(["kdb5_util", "create", "-s", "-r", REALM, "-P", "master"])
        host = f"host/{self.host}"
        asked = [f"addprinc -randkey {host}", f"ktadd -q -k {self.path('keytab')} {host}",
                 "addprinc -pw first kuser"]
        asked += [f"addprinc -randkey user{i}" for i in range(PRINCIPALS)]
        self.must(["kadmin.local", "-r", REALM], given="\n".join(asked) + "\n")
        self.dump("old")
        self.must(["kdb5_util", "-r", REALM, "load", self.path("old")], server="kdc-replica")
        shutil.copytree(self.path("replica"), self.path("saved"))
        self.must(["kadmin.local", "-r", REALM], given="addprinc -randkey one_more\n")
        self.dump("new")
        write(self.path("new.dump_ok"), "")
        self.start(["krb5kdc", "-r", REALM, "-n"], "kdc", "starting")

    def restore(self):
        shutil.rmtree(self.path("replica"))
        shutil.copytree(self.path("saved"), self.path("replica"))

    def database(self):
        """The replica's: old, new, or other."""
        if filecmp.cmp(self.path("replica/principal"), self.path("saved/principal"), False):
            return "old"
        self.dump("arrived", server="kdc-replica")
        for name in ("new", "old"):
            if filecmp.cmp(self.path(name), self.path("arrived"), False):
                return name
        return "other"

    def principals(self, name):
        """The names of the principals in a dump, without the realm."""
        lines = [line.split("\t") for line in read(self.path(name)).splitlines()]
        return [line[6].removesuffix("@" + REALM) for line in lines if line[0] == "princ"]

    def is_whole(self, name, more):
        """Whether a dump has each of the 2,000 principals and those of the programs once, these
        further ones, and no others but those that kdb5_util gives each realm."""
        names = self.principals(name)
        ours = {f"user{i}" for i in range(PRINCIPALS)} | {f"host/{self.host}", "kuser", *more}
        others = set(names) - ours
        return (len(names) == len(set(names)) and ours <= set(names) and "K/M" in others
                and all(it.split("/")[0] in GIVEN for it in others))

    # ---- kprop and kpasswd

    def start_kpropd(self, name, library=None, log=None):
        words = ["kpropd", "-D", "-P", str(self.ports["kpropd"]), "-r", REALM,
                 "-s", self.path("keytab"), "-f", self.path("incoming"),
                 "-F", self.path("replica/principal"), "-a", self.path("kpropd.acl"),
                 "-p", "/usr/sbin/kdb5_util"]
        return self.start(words, name, "ready", server="kdc-replica", library=library, log=log)

    def kpropd_of(self, connection, name, library=None, log=None):
        """A kpropd for one connection, as inetd starts it: its standard input is the socket."""
        words = ["kpropd", "-r", REALM, "-s", self.path("keytab"), "-f", self.path("incoming"),
                 "-F", self.path("replica/principal"), "-a", self.path("kpropd.acl"),
                 "-p", "/usr/sbin/kdb5_util"]
        env = self.environment(server="kdc-replica", library=library, log=log)
        with open(self.path(name), "wb") as output:
            process = subprocess.Popen(words, env=env, stdin=connection, stdout=output,
                                       stderr=subprocess.STDOUT)
        self.started.append(process)
        return process

    def kprop(self, etype, port, library=None, log=None, limit=60):
        words = ["kprop", "-r", REALM, "-f", self.path("new"), "-P", str(port),
                 "-s", self.path("keytab"), self.host]
        return self.run(words, client=f"krb5-{etype}", library=library, log=log, limit=limit)

    def start_kadmind(self, name, library=None, log=None, cache="none:"):
        return self.start(["kadmind", "-r", REALM, "-nofork"], name, "starting",
                          library=library, log=log, cache=cache)

    def kpasswd(self, client, library=None, log=None, limit=60, captured=None):
        """Changes the password, and answers the run and the new one."""
        self.runs += 1
        new = f"password{self.runs}"
        return self.run(["kpasswd", f"kuser@{REALM}"], client=client, library=library, log=log,
                        given=f"{self.password}\n{new}\n{new}\n", limit=limit, captured=captured), new

    def takes(self, password):
        """Whether the KDC gives a ticket for this password."""
        done = self.run(["kinit", "-c", "MEMORY:", f"kuser@{REALM}"], given=password + "\n")
        return done.returncode == 0

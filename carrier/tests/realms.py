"""A realm of MIT's programs on the loopback, as carrier/realm starts it, and what is asked of it."""
import os
import shutil
import subprocess

import engines

REALM_SCRIPT = os.path.join(os.path.dirname(os.path.abspath(__file__)), "../realm")
REALM = "KRBRELAY.TEST"
SENDER, SERVICE = "krbrelay-sender", "krbrelay/receiver"
LIMIT = 30              # seconds for one command
FOLDERS = "/usr/sbin:/usr/bin:/sbin:/bin"


class Realm:
    """A realm with its KDC, until stop."""

    def __init__(self, folder, env=None, name=REALM):
        self.folder, self.port, self.env, self.name = folder, engines.free_ports(1)[0], env, name
        self.process = None
        assert not missing(), f"missing: apt-get install {' '.join(missing())}"
        self.start()

    def start(self):
        self.process = subprocess.Popen([REALM_SCRIPT, self.folder, str(self.port), self.name],
                                        stdout=subprocess.PIPE, text=True, env=self.env)
        lines = [self.process.stdout.readline() for _ in range(2)]
        if not all(lines):
            raise RuntimeError(f"no realm: {lines}")

    def stop(self):
        self.process.terminate()
        self.process.wait(LIMIT)
        self.process.stdout.close()

    close = stop        # for contextlib.closing

    def path(self, name):
        return os.path.join(self.folder, name)

    def environment(self, config=None):
        """The runtime of the sanitizer needn't come before conditions.so, which a case may preload."""
        return dict(os.environ, KRB5_CONFIG=config or self.path("krb5.conf"),
                    KRB5_KDC_PROFILE=self.path("kdc.conf"), KRB5RCACHENAME="none:",
                    KRB5CCNAME="MEMORY:tests", ASAN_OPTIONS="detect_leaks=1:verify_asan_link_order=0",
                    PATH=f"{os.environ['PATH']}:{FOLDERS}")

    def must(self, words, given=""):
        return subprocess.run(words, input=given, env=self.environment(), text=True, check=True,
                              timeout=LIMIT, stdout=subprocess.PIPE,
                              stderr=subprocess.STDOUT).stdout

    def kadmin(self, *asked):
        text = self.must(["kadmin.local", "-r", self.name], "\n".join(asked) + "\n")
        if "while" in text:     # as in "... while creating"
            raise RuntimeError(text)

    def add(self, name):
        """A principal more, and the path of its keytab."""
        path = self.path(name.replace("/", "-") + ".keytab")
        self.kadmin(f"addprinc -randkey {name}", f"ktadd -q -k {path} {name}")
        return path

    def is_trusted_by(self, other):
        """The other realm takes tickets of this one: both have a key, and who asks here finds its KDC."""
        for realm in (self, other):
            realm.kadmin(f"addprinc -pw between krbtgt/{other.name}@{self.name}")
        with open(self.path("krb5.conf"), "a", encoding="utf-8") as file:
            file.write(f"[realms]\n  {other.name} = {{\n    kdc = 127.0.0.1:{other.port}\n  }}\n")

    def config(self, path, skew):
        """Another krb5.conf, whose clockskew is this one."""
        with open(self.path("krb5.conf"), encoding="utf-8") as file:
            text = file.read()
        with open(path, "w", encoding="utf-8") as file:
            file.write(text.replace("clockskew = 86400", f"clockskew = {skew}"))
        return path


def missing():
    """The names of what isn't installed."""
    found = [name for name, package in (("krb5kdc", "krb5-kdc"),
                                        ("kadmin.local", "krb5-admin-server"))
             if not shutil.which(name, path=FOLDERS) for name in [package]]
    asked = subprocess.run(["pkg-config", "--exists", "mit-krb5-gssapi"], check=False)
    return found + (["libkrb5-dev"] if asked.returncode else [])

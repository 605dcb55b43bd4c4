"""Runs of kprop to kpropd and of kpasswd to kadmind through a proxy that alters one message: each
case with MIT's code at both ends, with the library at both, and at one end."""
import dataclasses
import os
import socket
import subprocess
import time

import cases
import proxy as proxies
import realm as realms

BLOCK = 32768               # kprop's
BOUND = 60                  # seconds in which the programs have to end
NAMES = {(0, 0): "MIT's code", (1, 1): "library", (1, 0): "library at the sender",
         (0, 1): "library at the receiver"}
BACK = ("confirmation", "reply")
UNTOUCHED = cases.Case("", "nothing", proxies.Alteration(), cases.WELL, cases.NONE)


@dataclasses.dataclass
class Seen:
    """What was seen of one run."""
    outcome: str            # one of cases.py's, or what is wrong
    refusals: set           # the library's, at the reader of the altered message
    served: int             # how many messages the library made or read
    other: set              # the library's refusals at the other end


def logged(log, wanted):
    lines = [line.split() for line in realms.read(log).splitlines()] if log else []
    return [line[3] for line in lines if line[2] in wanted]


def outcome_of(stays, is_well):
    """The outcome, from whether the old one stays, and whether the sender ended well."""
    if stays == "other":
        return "ANOTHER DATABASE"
    if stays == "earlier":
        return "THE EARLIER ONE, BUT THE SENDER ENDS WELL" if is_well else cases.EARLIER
    if stays == "old":
        return "THE OLD ONE STAYS, BUT THE SENDER ENDS WELL" if is_well else cases.OLD
    return cases.WELL if is_well else cases.NEW


class Hostile:
    def __init__(self, realm, library, count):
        self.realm, self.library, self.count = realm, library, count
        self.differ, self.runs = [], 0
        self.last, self.earlier, self.earlier_password = {}, {}, "none yet"
        self.blocks = -(-os.path.getsize(realm.path("new")) // BLOCK)
        self.address = socket.gethostbyname(realm.host)

    def sides(self, ends):
        logs = [self.realm.path(f"log-{name}") for name in ("sender", "receiver")]
        for log in logs:
            if os.path.exists(log):
                os.remove(log)
        return [(self.library, log) if used else (None, None) for used, log in zip(ends, logs)]

    def seen(self, case, outcome, sides):
        self.runs += 1
        reader, other = sides if case.message in BACK else reversed(sides)
        served = sum(len(logged(log, ("made", "read"))) for _, log in sides)
        return Seen(outcome, set(logged(reader[1], ("refused",))), served,
                    set(logged(other[1], ("refused",))))

    # ---- one run

    def kprop(self, case, etype, ends):
        realm = self.realm
        realm.restore()
        sender, receiver = self.sides(ends)
        proxy = proxies.TcpProxy(self.address, self.blocks, case)
        kpropd = realm.kpropd_of(proxy.receiver, "kpropd", *receiver)
        proxy.receiver.close()
        proxy.start()
        try:
            done = realm.kprop(etype, proxy.port, *sender, limit=BOUND)
            status = kpropd.wait(BOUND)
            proxy.join(BOUND)
            outcome = self.kprop_outcome(case, proxy, done, status)
        except subprocess.TimeoutExpired:
            outcome = "NO END WITHIN THE BOUND"
        finally:
            realm.stop(kpropd)
            proxy.cut()
            proxy.close()
        return self.seen(case, outcome, (sender, receiver))

    def kprop_outcome(self, case, proxy, done, status):
        if done.returncode < 0 or status < 0:
            return f"ENDED BY A SIGNAL: kprop {done.returncode}, kpropd {status}"
        if proxy.hung or proxy.is_alive():
            return "A STALL"
        if case.message and not proxy.met:
            return "THE MESSAGE DIDN'T COME"
        database = self.realm.database()
        if (status == 0) != (database == "new"):
            return f"THE DATABASE IS {database}, BUT kpropd'S STATUS {status}"
        is_well = done.returncode == 0 and "SUCCEEDED" in done.stdout
        if not is_well and (done.returncode == 0 or not done.stdout.strip()):
            return "AN ERROR WITHOUT STATUS OR TEXT"
        return outcome_of(database, is_well)

    def kpasswd(self, case, etype, ends):
        realm = self.realm
        sender, receiver = self.sides(ends)
        proxy = proxies.UdpProxy(realm.ports["kpasswd"], case, dict(self.earlier))
        client, old = f"krb5-{etype}-proxy", realm.password
        realm.write_client(client, realms.CIPHERS[etype], kpasswd=proxy.port)
        proxy.start()
        try:
            done, new = realm.kpasswd(client, *sender, limit=BOUND)
            outcome = self.kpasswd_outcome(case, proxy, done, old, new)
        except subprocess.TimeoutExpired:
            outcome = "NO END WITHIN THE BOUND"
        finally:
            proxy.close()
        if outcome == cases.EARLIER:
            self.change_password(etype)
        self.last = proxy.seen
        return self.seen(case, outcome, (sender, receiver))

    def kpasswd_outcome(self, case, proxy, done, old, new):
        realm = self.realm
        if done.returncode < 0:
            return f"ENDED BY A SIGNAL: kpasswd {done.returncode}"
        if case.message and not proxy.met:
            return "THE MESSAGE DIDN'T COME"
        names = {self.earlier_password: "earlier", old: "old", new: "new"}
        taken = [it for it in names if realm.takes(it)]
        if len(taken) != 1:
            return f"{len(taken)} PASSWORDS ARE TAKEN"
        realm.password = taken[0]
        is_well = done.returncode == 0 and "Password changed" in done.stdout
        return outcome_of(names[taken[0]], is_well)

    def change_password(self, etype):
        """By MIT's code and no proxy."""
        done, new = self.realm.kpasswd(f"krb5-{etype}")
        if done.returncode or not self.realm.takes(new):
            raise RuntimeError(f"kpasswd without a proxy: {done.stdout}")
        self.realm.password = new

    # ---- a case at several ends

    def ends_of(self, case):
        """Where a message needs a time, its maker has the library. A stall takes seconds."""
        if case.stalls:
            return [(0, 0), (1, 1)]
        if case.timed:
            return [(0, 1) if case.message in BACK else (1, 0), (1, 1)]
        reader_alone = (1, 0) if case.message in BACK else (0, 1)
        return [(0, 0), (1, 1), reader_alone]

    def tell(self, program, case, seen):
        """A line for a case: each run's outcome against the table's."""
        wrong, told = [], []
        for ends, it in seen.items():
            is_read = ends[0 if case.message in BACK else 1]
            wanted = case.outcome if is_read else case.mit or case.outcome
            refusals = {case.refusal} - {cases.PASSED, cases.NONE} if is_read else set()
            good = it.outcome == wanted and it.refusals == refusals and not it.other
            good = good and (it.served > 0 or not all(ends))
            told.append(f"{NAMES[ends]}: {it.outcome}"
                        + "".join(f", {name}" for name in sorted(it.refusals | it.other)))
            if not good:
                wrong.append(NAMES[ends])
        if case.mit:
            self.differ.append(f"{program}, {case.message}, {case.what}: {case.why}")
        self.count.told(not wrong, f"{program}, {case.message}, {case.what}: {'; '.join(told)}")

    def run_kprop(self, etypes):
        for etype in etypes:
            for case in cases.KPROP:
                self.tell(f"kprop, type {etype}", case,
                          {ends: self.kprop(case, etype, ends) for ends in self.ends_of(case)})

    def run_kpasswd(self, etypes):
        """kadmind runs on from case to case, with the library and without."""
        seen = {(etype, number): {} for etype in etypes for number in range(len(cases.KPASSWD))}
        for receives in (0, 1):
            kadmind = self.realm.start_kadmind("kadmind", *self.sides((0, receives))[1],
                                               cache="file2:" + self.realm.path("replays"))
            for etype in etypes:
                self.kpasswd_cases(etype, receives, seen)
            self.count.told(kadmind.poll() is None,
                            f"kadmind, {NAMES[receives, receives]}: it runs on after all cases")
            self.realm.stop(kadmind)
        for (etype, number), it in seen.items():
            self.tell(f"kpasswd, type {etype}", cases.KPASSWD[number], it)

    def kpasswd_cases(self, etype, receives, seen):
        self.earlier_session(etype)
        for number, case in enumerate(cases.KPASSWD):
            for ends in self.ends_of(case):
                if ends[1] == receives:
                    seen[etype, number][ends] = self.kpasswd(case, etype, ends)

    def earlier_session(self, etype):
        """Keeps the messages and the password of a session, after which comes another password."""
        done = self.kpasswd(UNTOUCHED, etype, (0, 0))
        if done.outcome != cases.WELL:
            raise RuntimeError(f"kpasswd through the proxy: {done.outcome}")
        self.earlier = {"earlier " + name: self.last[name] for name in ("request", "reply")}
        self.earlier_password = self.realm.password
        self.change_password(etype)


def run_all(realm, library, count, etypes):
    hostile = Hostile(realm, library, count)
    started = time.monotonic()
    hostile.run_kprop(etypes)
    hostile.run_kpasswd(etypes)
    print(f"altered messages: {len(cases.KPROP)} cases of kprop and {len(cases.KPASSWD)} of "
          f"kpasswd, {hostile.runs} runs in {time.monotonic() - started:.0f} s; MIT's outcome "
          f"differs in {len(hostile.differ)}:")
    for line in hostile.differ:
        print("    " + line)

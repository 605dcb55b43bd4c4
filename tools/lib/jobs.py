"""Job files of krbrelay, as tools write them; `krbrelay relay --help` describes the keys."""
import dataclasses

MICROS = 1_700_000_000_000_005  # 2023-11-14T22:13:20Z and 5 microseconds


@dataclasses.dataclass
class Session:
    """One sender, and what its receiver expects. Addresses are pairs of a type and bytes."""
    key: bytes
    mode: str
    first: int
    origin: tuple
    to: tuple
    # job_keys.toml: flags
    write_to: bool = False
    require_to: bool = False
    expect_time: bool = True
    # end of flags
    skew: int = 300

    @property
    def etype(self):
        return 17 if len(self.key) == 16 else 18


FLAGS = [it.name for it in dataclasses.fields(Session) if isinstance(it.default, bool)]


def session(etype, mode, key, first=7):
    """A session of 10.0.0.1 with 10.0.0.255. A key that is too short is repeated, and a longer one
    cut."""
    size = 16 if etype == 17 else 32
    return Session((key * size)[:size], mode, first, (2, bytes([10, 0, 0, 1])),
                   (2, bytes([10, 0, 0, 255])))


def address(pair):
    kind, content = pair
    return f"{kind}:{content.hex()}"


def digits(values):
    return "[" + ", ".join(f'"{value.hex()}"' for value in values) + "]"


def moments(value):
    """One timestamp or several."""
    return value if isinstance(value, list) else [value]


def emission(kind, what, at=0, mask=0):
    """An emission of a plan: ("frame", k), ("flip", k, at, mask) or ("raw", bytes)."""
    if kind == "raw":
        return f'"raw {what.hex()}"'
    return f'"{what}"' if kind == "frame" else f'"flip {what} {at} {mask:02x}"'


def sender(of, now=MICROS, texts=None, frames=None, at=MICROS, seed=bytes(32), batch=None,
           plan=None):
    """The table of a session, with texts to be sealed or with frames to be opened, or with both."""
    lines = ["[[sender]]", f"etype = {of.etype}", f'key = "{of.key.hex()}"', f'mode = "{of.mode}"',
             f"first = {of.first}", f'from = "{address(of.origin)}"', f'to = "{address(of.to)}"',
             *(f"{it} = {str(getattr(of, it)).lower()}" for it in FLAGS), f"skew = {of.skew}", f"now = {moments(now)}"]
    if texts is not None:
        lines += [f'seed = "{seed.hex()}"', f"at = {moments(at)}", f"texts = {digits(texts)}"]
    if batch is not None:
        lines.append(f"batch = {batch}")
    if plan is not None:
        lines.append(f"plan = [{', '.join(emission(*it) for it in plan)}]")
    if frames is not None:
        lines.append(f"frames = {digits(frames)}")
    return "\n".join(lines) + "\n"


def sealing(it, now, **other):
    """The table of a sender of oracle/opener.py; other keys take the place of its own."""
    given = dict(texts=it.texts, at=it.ats, seed=it.seed, batch=it.batch, plan=it.plan)
    return sender(it.session, now, **{**given, **other})


def job(senders, capacity=None):
    head = [] if capacity is None else [f"capacity = {capacity}\n"]
    return "\n".join(head + senders)

"""Sealing and opening of KRB-SAFE and KRB-PRIV messages (RFC 4120) under encryption types 17 and 18
(RFC 3962), by the library libkrbrelay. docs/PYTHON.md has a whole program.

    with Sealer(17, key, mode=Mode.PRIV, sender=Address.ip("10.0.0.1"), first=7) as sealer:
        frame = sealer.seal(b"hello")

Moments are aware datetimes, or microseconds since 1970-01-01T00:00:00Z, of the years 1970 to 9999.
The library is found by the variable KRBRELAY_LIBRARY, which names the shared object; beside the
package; by pkg-config; or by the system's loader. A call raises LibraryError where it isn't found.
"""
from krbrelay.errors import (
    Code, Error, Exhausted, Freed, Refusal, Wiped, answer_name, answer_text)
from krbrelay.history import History
from krbrelay.library import (
    ADDRESS_LIMIT, FRAME_LIMIT, HISTORY_SIZE, USER_DATA_LIMIT, LibraryError, library_version)
from krbrelay.message import message_header
from krbrelay.opener import Opener
from krbrelay.peer import Numbers, Peer
from krbrelay.receiver import Receiver, State
from krbrelay.sealer import Sealer
from krbrelay.values import (
    Address, Batch, Body, Closed, Demand, Header, How, Mode, Moment, Record, Text)
from krbrelay.window import Taken, Window

__version__ = "1.1.0"

__all__ = [
    "ADDRESS_LIMIT", "Address", "Batch", "Body", "Closed", "Code", "Demand", "Error", "Exhausted",
    "FRAME_LIMIT", "Freed", "HISTORY_SIZE", "Header", "History", "How", "LibraryError", "Mode",
    "Moment", "Numbers", "Opener", "Peer", "Receiver", "Record", "Refusal", "Sealer", "State",
    "Taken", "Text", "USER_DATA_LIMIT", "Window", "Wiped",
    "answer_name", "answer_text", "library_version", "message_header",
]

"""What a message reports of itself in clear."""
from __future__ import annotations

from krbrelay.errors import check
from krbrelay.library import HeaderStruct, library
from krbrelay.turns import called
from krbrelay.values import Bytes, Header, bytes_of, header_of


def message_header(frame: Bytes) -> Header:
    """What a message reports of itself in clear (RFC 4120 sections 5.6.1 and 5.7.1), so that a key
    can be chosen. Refusal with Code.FIELD_TOOLONG or Code.MALFORMED, TypeError, MemoryError,
    LibraryError."""
    content, header = bytes_of("the message", frame), HeaderStruct()
    check(called(library().krbrelay_message_header, content, len(content), header))
    return header_of(header)

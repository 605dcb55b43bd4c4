"""The shared object of libkrbrelay: where it is found, and its structs and calls (krbrelay.h)."""
from __future__ import annotations

import ctypes
import functools
import os
import pathlib
import re
import shutil
import subprocess
from ctypes import (
    POINTER, c_char_p, c_int32, c_size_t, c_uint8, c_uint32, c_uint64, c_void_p)
from typing import Any, Dict, Iterator, List, Optional, Tuple

MAJOR = 1
NAME = f"libkrbrelay.so.{MAJOR}"
VARIABLE = "KRBRELAY_LIBRARY"
LOADER = "/lib64/ld-linux-x86-64.so.2"

# tables/limits.toml: limits, by tools/tables
USER_DATA_LIMIT = 1_000_001
"""The most bytes of user data that are sealed."""
FRAME_LIMIT = 1_005_000
"""The most bytes of a message that is opened."""
ADDRESS_LIMIT = 40
"""The most bytes of an address."""
MOST_MESSAGES = 64
"""The most messages that are sealed in one call."""
MOST_FRAMES = 64
"""The most frames that are taken in one call."""
# end of limits
CONFOUNDER_SIZE = 16
PEER_STATE_SIZE = 20
HISTORY_SIZE = 20
TEXT_SIZE = 64


class LibraryError(OSError):
    """libkrbrelay isn't there, or isn't of the major version that this package calls."""


# ---- the structs of krbrelay.h

class HandleStruct(ctypes.Structure):
    """struct krbrelay_sealer, krbrelay_opener, krbrelay_receiver, krbrelay_peer, krbrelay_lane,
    krbrelay_shard and krbrelay_queue, which are alike."""
    _fields_ = [("at", c_void_p), ("count", c_size_t)]


class MomentStruct(ctypes.Structure):
    """struct krbrelay_moment."""
    _fields_ = [("seconds", c_uint64), ("microseconds", c_uint32), ("reserved", c_uint32)]


class AddressStruct(ctypes.Structure):
    """struct krbrelay_address."""
    _fields_ = [("kind", c_int32), ("len", c_uint32), ("bytes", c_uint8 * ADDRESS_LIMIT)]


class SessionStruct(ctypes.Structure):
    """struct krbrelay_session."""
    _fields_ = [("mode", c_uint32), ("first", c_uint32), ("sender", AddressStruct),
                ("has_receiver", c_uint32), ("receiver", AddressStruct),
                ("reserved", c_uint32 * 5)]


class ExpectStruct(ctypes.Structure):
    """struct krbrelay_expect."""
    _fields_ = [("mode", c_uint32), ("sender", AddressStruct), ("receiver", AddressStruct),
                ("require_receiver", c_uint32), ("require_time", c_uint32), ("skew", c_uint32),
                ("reserved", c_uint32 * 4)]


class DemandStruct(ctypes.Structure):
    """struct krbrelay_demand."""
    _fields_ = [("how_sender", c_uint32), ("how_receiver", c_uint32), ("how_time", c_uint32),
                ("how_number", c_uint32), ("number", c_uint64), ("skew", c_uint32),
                ("sender", AddressStruct), ("receiver", AddressStruct),
                ("needs_time_or_number", c_uint32), ("reserved", c_uint32 * 4)]


class CarriedStruct(ctypes.Structure):
    """struct krbrelay_carried."""
    _fields_ = [("seconds", c_uint64), ("microseconds", c_uint32), ("has_seconds", c_uint32),
                ("has_microseconds", c_uint32), ("has_number", c_uint32), ("number", c_uint32),
                ("has_receiver", c_uint32), ("sender", AddressStruct),
                ("receiver", AddressStruct), ("reserved", c_uint32 * 6)]


class HeaderStruct(ctypes.Structure):
    """struct krbrelay_header."""
    _fields_ = [("kind", c_uint32), ("etype", c_int32), ("checksum_type", c_int32),
                ("has_number", c_uint32), ("number", c_uint32), ("has_key_version", c_uint32),
                ("key_version", c_uint32), ("reserved", c_uint32)]


class UnsealedStruct(ctypes.Structure):
    """struct krbrelay_unsealed."""
    _fields_ = [("user_data", c_char_p), ("user_data_len", c_size_t), ("at", MomentStruct),
                ("confounder", c_uint8 * CONFOUNDER_SIZE)]


class FrameStruct(ctypes.Structure):
    """struct krbrelay_frame."""
    _fields_ = [("bytes", c_char_p), ("bytes_len", c_size_t)]


class TakenStruct(ctypes.Structure):
    """struct krbrelay_taken."""
    _fields_ = [("answer", c_uint32), ("kind", c_uint32), ("size", c_size_t), ("number", c_uint64)]


class WindowStruct(ctypes.Structure):
    """struct krbrelay_window."""
    _fields_ = [("highest", c_uint64), ("taken", c_uint64)]


class PauseStruct(ctypes.Structure):
    """struct krbrelay_pause."""
    _fields_ = [("since", c_uint64), ("length", c_uint64)]


class ProgressStruct(ctypes.Structure):
    """struct krbrelay_progress."""
    _fields_ = [("next", c_uint64), ("carried", c_uint64), ("at", c_uint64), ("sent", c_uint64)]


class SendingStruct(ctypes.Structure):
    """struct krbrelay_sending."""
    _fields_ = [("progress", ProgressStruct), ("done", c_uint64), ("list", c_uint64),
                ("recovers", c_uint64), ("window", c_uint64), ("ask", PauseStruct),
                ("again", PauseStruct), ("probe", PauseStruct), ("is_asked", c_uint32),
                ("is_held", c_uint32), ("is_answered", c_uint32), ("ended", c_uint32)]


class CommandStruct(ctypes.Structure):
    """struct krbrelay_command."""
    _fields_ = [("number", c_uint64), ("count", c_uint64), ("at", c_uint64), ("kind", c_uint32),
                ("opening", c_uint32)]


class ReceiptStruct(ctypes.Structure):
    """struct krbrelay_receipt."""
    _fields_ = [("number", c_uint64), ("history", c_uint8 * HISTORY_SIZE), ("asks", c_uint32)]


class FlowStruct(ctypes.Structure):
    """struct krbrelay_flow."""
    _fields_ = [("list", c_uint64), ("under_way", c_uint64), ("has_list", c_uint32),
                ("reserved", c_uint32)]


class StoredStruct(ctypes.Structure):
    """struct krbrelay_stored."""
    _fields_ = [("next", c_uint64), ("carried", c_uint64), ("at", c_uint64), ("done", c_uint64),
                ("list", c_uint64)]


class ServedStruct(ctypes.Structure):
    """struct krbrelay_served."""
    _fields_ = [("command", CommandStruct), ("place", c_uint32), ("is_moved", c_uint32)]


class RowStruct(ctypes.Structure):
    """struct krbrelay_row."""
    _fields_ = [("number", c_uint64), ("history", c_uint8 * HISTORY_SIZE), ("closed", c_uint32)]


class ReceivingStruct(ctypes.Structure):
    """struct krbrelay_receiving."""
    _fields_ = [("stored", RowStruct), ("drafted", RowStruct), ("paid", PauseStruct),
                ("is_open", c_uint32), ("owed", c_uint32)]


class SeenStruct(ctypes.Structure):
    """struct krbrelay_seen."""
    _fields_ = [("opened", c_uint64), ("has_opened", c_uint32), ("accepted", c_uint32),
                ("is_close", c_uint32), ("reserved", c_uint32)]


class SpotStruct(ctypes.Structure):
    """struct krbrelay_spot."""
    _fields_ = [("list", c_uint64), ("offset", c_uint64)]


class ReadingStruct(ctypes.Structure):
    """struct krbrelay_reading."""
    _fields_ = [("stored", SpotStruct), ("read", SpotStruct), ("is_open", c_uint32),
                ("reserved", c_uint32)]


class HeadStruct(ctypes.Structure):
    """struct krbrelay_head."""
    _fields_ = [("turn", c_uint64), ("number", c_uint64), ("history", c_uint8 * HISTORY_SIZE),
                ("closed", c_uint32)]


class OpeningStruct(ctypes.Structure):
    """struct krbrelay_opening."""
    _fields_ = [("turn", c_uint64), ("number", c_uint64), ("history", c_uint8 * HISTORY_SIZE),
                ("reserved", c_uint32)]


# ---- the calls of krbrelay.h: what each returns, and its parameters

_AT = c_void_p                  # an address of what this package keeps, which is passed quickest
_HANDLE = _AT
_MOMENT = POINTER(MomentStruct)
_KEY = [c_int32, POINTER(c_uint8), c_size_t]     # the encryption type, the key and its size
_BYTES = [c_char_p, c_size_t]                   # what is read
_ROOM = [POINTER(c_uint8), c_size_t]             # what is written
_SIZE = POINTER(c_size_t)
_STATE = POINTER(c_uint8)        # PEER_STATE_SIZE bytes
_HISTORY = POINTER(c_uint8)      # HISTORY_SIZE bytes
_KEPT = [_AT, c_size_t, _AT]     # what is written, and its size
_SENDING = POINTER(SendingStruct)
_RECEIVING = POINTER(ReceivingStruct)
_READING = POINTER(ReadingStruct)
_FLOW = POINTER(FlowStruct)
_PAUSE = POINTER(PauseStruct)
_NUMBER, _FLAG = POINTER(c_uint64), POINTER(c_uint32)       # what is told

CALLS: Dict[str, Tuple[Any, List[Any]]] = {
    "krbrelay_version": (c_uint32, []),
    "krbrelay_sealer_new": (c_uint32, [_HANDLE, *_KEY, POINTER(SessionStruct)]),
    "krbrelay_frame_size": (c_size_t, [c_size_t]),
    "krbrelay_sealer_seal":
        (c_uint32, [_HANDLE, *_BYTES, _AT, c_char_p, *_KEPT]),
    "krbrelay_sealer_seal_record":
        (c_uint32, [_HANDLE, c_uint32, *_BYTES, _AT, c_char_p, *_KEPT]),
    "krbrelay_sealer_seal_many":
        (c_uint32, [_HANDLE, POINTER(UnsealedStruct), c_size_t, *_ROOM, _SIZE, _SIZE]),
    "krbrelay_sealer_next": (c_uint32, [_HANDLE, POINTER(c_uint64)]),
    "krbrelay_sealer_frame_size": (c_uint32, [_HANDLE, c_size_t, _MOMENT, _SIZE]),
    "krbrelay_sealer_set_mode": (c_uint32, [_HANDLE, c_uint32]),
    "krbrelay_sealer_wipe": (None, [_HANDLE]),
    "krbrelay_sealer_free": (None, [_HANDLE]),
    "krbrelay_opener_new": (c_uint32, [_HANDLE, *_KEY, POINTER(ExpectStruct)]),
    "krbrelay_opener_unseal": (c_uint32, [_HANDLE, *_BYTES, c_uint64, _MOMENT, *_ROOM, _SIZE]),
    "krbrelay_opener_open":
        (c_uint32, [_HANDLE, *_BYTES, POINTER(DemandStruct), _MOMENT, *_ROOM, _SIZE,
                    POINTER(CarriedStruct)]),
    "krbrelay_opener_wipe": (None, [_HANDLE]),
    "krbrelay_opener_free": (None, [_HANDLE]),
    "krbrelay_receiver_new":
        (c_uint32, [_HANDLE, *_KEY, POINTER(ExpectStruct), c_uint64, c_uint32]),
    "krbrelay_receiver_take_numbered":
        (c_uint32, [_HANDLE, *_BYTES, _MOMENT, POINTER(c_uint32), *_ROOM, _SIZE,
                    POINTER(c_uint64)]),
    "krbrelay_receiver_take_many":
        (c_uint32, [_HANDLE, POINTER(FrameStruct), c_size_t, _MOMENT, *_ROOM,
                    POINTER(TakenStruct)]),
    "krbrelay_receiver_state": (c_uint32, [_HANDLE, POINTER(c_uint64), POINTER(c_uint32)]),
    "krbrelay_receiver_free": (None, [_HANDLE]),
    "krbrelay_peer_new":
        (c_uint32, [_HANDLE, *_KEY, POINTER(SessionStruct), POINTER(DemandStruct)]),
    "krbrelay_peer_resume":
        (c_uint32, [_HANDLE, *_KEY, POINTER(SessionStruct), POINTER(DemandStruct), _STATE]),
    "krbrelay_peer_seal": (c_uint32, [_HANDLE, *_BYTES, _AT, c_char_p, *_KEPT]),
    "krbrelay_peer_seal_many":
        (c_uint32, [_HANDLE, POINTER(UnsealedStruct), c_size_t, *_ROOM, _SIZE, _SIZE]),
    "krbrelay_peer_open":
        (c_uint32, [_HANDLE, *_BYTES, _MOMENT, *_ROOM, _SIZE, POINTER(CarriedStruct)]),
    "krbrelay_peer_state": (c_uint32, [_HANDLE, POINTER(c_uint64), POINTER(c_uint64)]),
    "krbrelay_peer_export": (c_uint32, [_HANDLE, _STATE]),
    "krbrelay_peer_free": (None, [_HANDLE]),
    "krbrelay_window_new": (None, [POINTER(WindowStruct), c_uint64]),
    "krbrelay_window_take": (c_uint32, [POINTER(WindowStruct), c_uint64]),
    "krbrelay_history_add": (c_uint32, [_HISTORY, *_BYTES]),
    "krbrelay_sending_load": (c_uint32, [_SENDING, *[c_uint64] * 6]),
    "krbrelay_sending_sealed": (c_uint32, [_SENDING, c_uint64]),
    "krbrelay_sending_confirmed": (c_uint32, [_SENDING, c_uint64, c_uint64, c_uint64, _FLAG]),
    "krbrelay_sending_listed": (c_uint32, [_SENDING, c_uint64, _FLAG]),
    "krbrelay_sending_reconnected": (c_uint32, [_SENDING]),
    "krbrelay_sending_receipt":
        (c_uint32, [_SENDING, POINTER(ReceiptStruct), _HISTORY, c_uint64, _FLAG]),
    "krbrelay_sending_serve": (c_uint32, [_SENDING, c_uint64, c_uint64, POINTER(CommandStruct)]),
    "krbrelay_sending_state": (c_uint32, [_SENDING, _NUMBER, _NUMBER, _FLAG, _FLAG]),
    "krbrelay_flow_room": (c_uint32, [_FLOW, _NUMBER]),
    "krbrelay_flow_moved": (c_uint32, [_FLOW, c_uint64, c_uint64]),
    "krbrelay_receiving_load": (None, [_RECEIVING, POINTER(RowStruct), c_uint64]),
    "krbrelay_receiving_take": (c_uint32, [_RECEIVING, *_BYTES, POINTER(SeenStruct), _FLAG]),
    "krbrelay_receiving_stored": (c_uint32, [_RECEIVING]),
    "krbrelay_receiving_dropped": (c_uint32, [_RECEIVING]),
    "krbrelay_receiving_receipt": (c_uint32, [_RECEIVING, c_uint64, POINTER(ReceiptStruct)]),
    "krbrelay_reading_load": (None, [_READING, c_uint64, c_uint64]),
    "krbrelay_reading_frames": (c_uint32, [_READING, c_uint64, c_uint64, c_uint64, _FLAG]),
    "krbrelay_reading_stored": (c_uint32, [_READING]),
    "krbrelay_judge": (c_uint32, [POINTER(HeadStruct), POINTER(OpeningStruct), _FLAG]),
    "krbrelay_pause_begin": (None, [_PAUSE, c_uint64, c_uint64]),
    "krbrelay_pause_is_over": (c_uint32, [_PAUSE, c_uint64]),
    "krbrelay_pause_end": (c_uint64, [_PAUSE]),
    "krbrelay_pause_grow": (None, [_PAUSE, c_uint64, c_uint64]),
    "krbrelay_queue_ready": (c_uint32, [_HANDLE, c_uint32]),
    "krbrelay_queue_serve": (c_uint32, [_HANDLE, _FLAG]),
    "krbrelay_queue_len": (c_size_t, [_HANDLE]),
    "krbrelay_queue_free": (None, [_HANDLE]),
    "krbrelay_lane_add": (c_uint32, [_HANDLE, POINTER(StoredStruct), c_uint32, _FLAG]),
    "krbrelay_lane_reload": (c_uint32, [_HANDLE, c_uint32, POINTER(StoredStruct), c_uint32]),
    "krbrelay_lane_session": (c_uint32, [_HANDLE, c_uint32, _SENDING]),
    "krbrelay_lane_turn": (c_uint32, [_HANDLE, c_uint64, POINTER(ServedStruct)]),
    "krbrelay_lane_next_time": (c_uint64, [_HANDLE]),
    "krbrelay_lane_sealed": (c_uint32, [_HANDLE, c_uint32, c_uint64]),
    "krbrelay_lane_confirmed":
        (c_uint32, [_HANDLE, c_uint32, c_uint64, c_uint64, c_uint64, _FLAG]),
    "krbrelay_lane_receipt":
        (c_uint32, [_HANDLE, c_uint32, POINTER(ReceiptStruct), _HISTORY, c_uint32, c_uint64,
                    _FLAG]),
    "krbrelay_lane_stop": (c_uint32, [_HANDLE, c_uint32]),
    "krbrelay_lane_release": (c_uint32, [_HANDLE, c_uint32]),
    "krbrelay_lane_listed": (c_uint32, [_HANDLE, c_uint32, c_uint64]),
    "krbrelay_lane_free": (None, [_HANDLE]),
    "krbrelay_shard_new": (c_uint32, [_HANDLE, c_uint32, c_uint32]),
    "krbrelay_shard_loaded": (c_uint32, [_HANDLE, c_uint64, c_uint64]),
    "krbrelay_shard_listed": (c_uint32, [_HANDLE, c_uint64, c_uint64, _FLAG]),
    "krbrelay_shard_found": (c_uint32, [_HANDLE, c_uint64, c_uint64, _FLAG]),
    "krbrelay_shard_forget": (c_uint32, [_HANDLE]),
    "krbrelay_shard_reading": (c_uint32, [_HANDLE, POINTER(ReadingStruct)]),
    "krbrelay_shard_add": (c_uint32, [_HANDLE, POINTER(RowStruct), _FLAG]),
    "krbrelay_shard_session": (c_uint32, [_HANDLE, c_uint32, POINTER(ReceivingStruct)]),
    "krbrelay_shard_turn": (c_uint32, [_HANDLE, c_uint64, _FLAG, POINTER(c_uint64)]),
    "krbrelay_shard_next_time": (c_uint64, [_HANDLE]),
    "krbrelay_shard_begin": (c_uint32, [_HANDLE, c_uint64, c_uint64, _FLAG]),
    "krbrelay_shard_take":
        (c_uint32, [_HANDLE, c_uint32, *_BYTES, POINTER(SeenStruct), c_uint64, _FLAG]),
    "krbrelay_shard_pass": (c_uint32, [_HANDLE, c_uint64]),
    "krbrelay_shard_is_full": (c_uint32, [_HANDLE, c_uint64]),
    "krbrelay_shard_stored": (c_uint32, [_HANDLE]),
    "krbrelay_shard_failed": (c_uint32, [_HANDLE, c_uint32, c_uint64, _FLAG]),
    "krbrelay_shard_receipt": (c_uint32, [_HANDLE, c_uint64, _FLAG, POINTER(ReceiptStruct)]),
    "krbrelay_shard_unpaid": (c_uint32, [_HANDLE, c_uint32, c_uint32]),
    "krbrelay_shard_free": (None, [_HANDLE]),
    "krbrelay_message_header": (c_uint32, [*_BYTES, POINTER(HeaderStruct)]),
    "krbrelay_check_session": (c_uint32, [POINTER(SessionStruct)]),
    "krbrelay_check_expect": (c_uint32, [POINTER(ExpectStruct)]),
    "krbrelay_check_demand": (c_uint32, [POINTER(DemandStruct)]),
    "krbrelay_check_peer_demand": (c_uint32, [POINTER(DemandStruct)]),
    "krbrelay_field_name": (c_char_p, [c_uint32]),
    "krbrelay_answer_name": (c_uint32, [c_uint32, *_ROOM, _SIZE]),
    "krbrelay_answer_text": (c_uint32, [c_uint32, *_ROOM, _SIZE]),
    "krbrelay_class_of": (c_uint32, [c_uint32]),
}


# ---- finding and loading

def pkg_config_folder() -> Optional[str]:
    """The folder of libraries that `pkg-config` names for krbrelay, or None."""
    command = shutil.which("pkg-config")
    if command is None:
        return None
    ran = subprocess.run([command, "--variable=libdir", "krbrelay"], check=False,
                         stdin=subprocess.DEVNULL, capture_output=True, text=True)
    return ran.stdout.strip() or None if ran.returncode == 0 else None


@functools.lru_cache(maxsize=None)
def levels() -> Tuple[str, ...]:
    """The levels of the processor, the best first, whose objects the system's loader takes before
    the plain one: those that it says it searches. () where there is no such loader."""
    if not os.path.exists(LOADER):
        return ()
    ran = subprocess.run([LOADER, "--help"], check=False, stdin=subprocess.DEVNULL,
                         capture_output=True, text=True)
    searched = re.compile(r"^ +(x86-64-v\d+) \(supported, searched\)$", re.MULTILINE)
    return tuple(searched.findall(ran.stdout))


def in_folder(folder: str) -> Iterator[str]:
    """Where the shared object may be in a folder of libraries, in the loader's order."""
    subfolders = os.path.join(folder, "glibc-hwcaps")
    if os.path.isdir(subfolders):
        for level in levels():
            yield os.path.join(subfolders, level, NAME)
    yield os.path.join(folder, NAME)


def places() -> Iterator[str]:
    """Where the shared object may be, the first place first."""
    package = pathlib.Path(__file__).resolve().parent
    yield from in_folder(str(package))
    yield str(package.parents[1] / "out" / "c_library" / NAME)
    folder = pkg_config_folder()
    if folder is not None:
        yield from in_folder(folder)


def find() -> str:
    """The path of the shared object, or its name alone, for the system's loader to find."""
    named = os.environ.get(VARIABLE)
    if named:
        return named
    return next((place for place in places() if os.path.exists(place)), NAME)


def load(path: str) -> ctypes.CDLL:
    """The shared object at the path, with the types of its calls. LibraryError."""
    try:
        library = ctypes.CDLL(path)
    except OSError as fault:
        raise LibraryError(
            f"libkrbrelay can't be loaded: {fault}. `make -C c install PREFIX=PREFIX` builds it; "
            f"then set {VARIABLE}=PREFIX/lib/{NAME}, or PKG_CONFIG_PATH=PREFIX/lib/pkgconfig."
        ) from fault
    for name, (result, parameters) in CALLS.items():
        if not hasattr(library, name):
            raise LibraryError(f"{path} has no call {name}: it isn't libkrbrelay {MAJOR}, or is"
                               " older than this package")
        call = getattr(library, name)
        call.restype, call.argtypes = result, parameters
    found = version_of(library)
    if found[0] != MAJOR:
        raise LibraryError(f"{path} is libkrbrelay {'.'.join(map(str, found))}: this package calls "
                           f"version {MAJOR}")
    return library


@functools.lru_cache(maxsize=None)
def library() -> ctypes.CDLL:
    """libkrbrelay, which is found and loaded at the first call. LibraryError."""
    return load(find())


def version_of(loaded: ctypes.CDLL) -> Tuple[int, int, int]:
    number: int = loaded.krbrelay_version()
    return number >> 16, number >> 8 & 0xFF, number & 0xFF


def library_version() -> Tuple[int, int, int]:
    """The version of libkrbrelay: major number, minor number and patch. LibraryError."""
    return version_of(library())

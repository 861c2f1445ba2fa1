"""The host in memory, by the library that bin/library makes, with nothing beside Python. As a program it is
`swhost init | replay | show` on the disk of the current folder.

    status, text, parts = init(EMPTY)
    status, text, parts = replay(recording, parts)
    status, text = show(parts)

A recording, a text and each of the three parts (Root, Left and Right) are bytes; a status is that of the program's command."""
import ctypes
import os
import sys

EMPTY = (b"", b"", b"")
NO_ROOM = 256
LIBRARY = os.path.join(os.path.dirname(os.path.realpath(__file__)), "..", "out", "libswhost.so")


class Lengths(ctypes.Structure):
    _fields_ = [(name, ctypes.c_size_t) for name in ("text", "root", "left", "right")]


_library = ctypes.CDLL(os.environ.get("SWHOST_LIBRARY", LIBRARY))


def _call(name, *given):
    """Calls until the room has place for all that is handed out. Returns the status, the room and the lengths."""
    call, lengths, wanted = getattr(_library, name), Lengths(), sum(map(len, given)) + 65536
    call.restype = ctypes.c_uint32
    words = [word for piece in given for word in (ctypes.c_char_p(piece), ctypes.c_size_t(len(piece)))]
    while True:
        room = ctypes.create_string_buffer(wanted)
        # (show sets the first length alone, as the others are 0)
        status = call(*words, room, ctypes.c_size_t(wanted), ctypes.byref(lengths))
        if status != NO_ROOM:
            return status, room.raw, lengths
        wanted = lengths.text + lengths.root + lengths.left + lengths.right


def _cut(status, room, lengths):
    pieces, at = [], 0
    for name, _ in Lengths._fields_:
        length = getattr(lengths, name)
        pieces.append(room[at : at + length])
        at += length
    return status, pieces[0], tuple(pieces[1:])


def init(parts):
    return _cut(*_call("swhost_init", *parts))


def replay(recording, parts):
    return _cut(*_call("swhost_replay", recording, *parts))


def show(parts):
    return _cut(*_call("swhost_show", *parts))[:2]


def _main(word):
    names, parts = [f"swhost.{part}" for part in ("root", "left", "right")], []
    for name in names:
        with open(name, "ab+") as file:
            file.seek(0)
            parts.append(file.read())
    if word == "show":
        status, text = show(parts)
    else:
        status, text, after = init(parts) if word == "init" else replay(sys.stdin.buffer.read(), parts)
        for name, bytes_of in zip(names, after if status != 1 else parts):
            with open(name, "wb") as file:
                file.write(bytes_of)
    sys.stdout.buffer.write(text)
    return status


if __name__ == "__main__":
    if sys.argv[1:] not in (["init"], ["replay"], ["show"]):
        sys.exit("usage: swhost.py init | replay | show")
    sys.exit(_main(sys.argv[1]))

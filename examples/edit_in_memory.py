"""The program as a function in Python, by the library, whose place is LIBRARY, such as lib/libdgnedit.so.1.

    python3 examples/edit_in_memory.py LIBRARY IN SCRIPT OUT"""

from __future__ import annotations

import ctypes
import os
import sys


class Bytes(ctypes.Structure):
    _fields_ = [('at', ctypes.c_char_p), ('length', ctypes.c_size_t)]


class File(ctypes.Structure):
    _fields_ = [('name', Bytes), ('bytes', Bytes)]


class Ended(ctypes.Structure):
    _fields_ = [('text_length', ctypes.c_size_t), ('file_length', ctypes.c_size_t),
                ('status', ctypes.c_uint32), ('file_written', ctypes.c_bool)]


def run(library: ctypes.CDLL, words: list[str], files: dict[str, bytes]) -> tuple[int, bytes, bytes | None]:
    """Runs the program with these words over these files: its exit number, what it says, the file that it writes."""
    def handed(piece: bytes) -> Bytes:
        return Bytes(piece, len(piece))

    library.dgnedit_run.restype = Ended
    given = (Bytes * len(words))(*(handed(word.encode()) for word in words))
    lent = (File * len(files))(*(File(handed(name.encode()), handed(it)) for name, it in files.items()))
    text_room = file_room = sum(map(len, files.values())) + 65536
    while True:
        text, file = ctypes.create_string_buffer(text_room), ctypes.create_string_buffer(file_room)
        size = ctypes.c_size_t
        ended = library.dgnedit_run(given, size(len(given)), lent, size(len(lent)),
                                    text, size(text_room), file, size(file_room))
        if ended.text_length <= text_room and ended.file_length <= file_room:
            made = ctypes.string_at(file, ended.file_length) if ended.file_written else None
            return ended.status, ctypes.string_at(text, ended.text_length), made
        text_room, file_room = ended.text_length, ended.file_length


def main() -> int:
    place, drawing, script, output = sys.argv[1:]
    with open(drawing, 'rb') as first, open(script, 'rb') as second:
        files = {'IN': first.read(), 'SCRIPT': second.read()}
    status, text, file = run(ctypes.CDLL(os.path.abspath(place)), ['edit', 'IN', 'SCRIPT', 'OUT'], files)
    sys.stdout.buffer.write(text)
    if file is not None:
        with open(output, 'wb') as out:
            out.write(file)
    return status


if __name__ == '__main__':
    sys.exit(main())

"""A session whose calls of functions are messages of the protocol, as libpq's PQfn sends them: there is no statement, and so no expression.
"""

import contextlib
import ctypes
import struct

ANSWERED, LONGEST = 1, 1 << 20


class Argument(ctypes.Structure):
    """An argument of PQfn: bytes, of which less than none are NULL."""

    _fields_ = [("length", ctypes.c_int), ("is_number", ctypes.c_int), ("bytes", ctypes.c_char_p)]


def libpq():
    """Gives the library, or None if it is not there."""
    try:
        library = ctypes.CDLL("libpq.so.5")
    except OSError:
        return None
    for name in ("PQconnectdb", "PQfn", "PQexec"):
        getattr(library, name).restype = ctypes.c_void_p
    for name in ("PQerrorMessage", "PQresultErrorField"):
        getattr(library, name).restype = ctypes.c_char_p
    return library


class Session:
    """A session with a server."""

    def __init__(self, library, setting):
        names = {"host": "PGHOST", "port": "PGPORT", "user": "PGUSER", "dbname": "PGDATABASE"}
        words = " ".join(f"{word}={setting[name]}" for word, name in names.items())
        self.library, self.connection = library, ctypes.c_void_p(library.PQconnectdb(words.encode()))
        assert self.library.PQstatus(self.connection) == 0, self.library.PQerrorMessage(self.connection)

    def call(self, function, arguments):
        """Gives the bytes that a function, by its number, answers to bytes, or None for NULL; or the code of its error as a text."""
        buffer, length = ctypes.create_string_buffer(LONGEST), ctypes.c_int(0)
        given = (Argument * len(arguments))(*(Argument(-1, 0, None) if it is None else Argument(len(it), 0, it) for it in arguments))
        result = ctypes.c_void_p(self.library.PQfn(self.connection, function, buffer, ctypes.byref(length), 0, given, len(arguments)))
        try:
            if self.library.PQresultStatus(result) == ANSWERED:
                return None if length.value < 0 else buffer.raw[:length.value]
            code = self.library.PQresultErrorField(result, ord("C"))
            return code.decode() if code else f"lost: {self.library.PQerrorMessage(self.connection)}"
        finally:
            self.library.PQclear(result)


@contextlib.contextmanager
def session_of(server):
    """A session with a server, by such messages."""
    session = Session(libpq(), server.setting)
    try:
        yield session
    finally:
        session.library.PQfinish(session.connection)


def array_of(kind, elements):
    """Gives an array as the protocol has it, of elements of a type, by its number; None is NULL."""
    parts = [struct.pack("!i", -1) if it is None else struct.pack("!i", len(it)) + it for it in elements]
    return struct.pack("!iiIii", 1, None in elements, kind, len(elements), 1) + b"".join(parts)

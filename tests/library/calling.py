"""The six calls that keep nothing, by the shared library."""

import ctypes
import typing

import driving

SIZE_MAX = 2**64 - 1


class Text(ctypes.Structure):
    _fields_ = [("bytes", ctypes.c_char_p), ("length", ctypes.c_size_t)]


class Reply(ctypes.Structure):
    _fields_ = [(name, ctypes.c_size_t) for name in ("length", "first", "second", "total", "places")] + [
        (name, ctypes.c_uint32) for name in ("status", "flags")]


class Said(typing.NamedTuple):
    status: int
    first: int
    second: int
    total: int
    text: bytes
    places: int  # how many bytes at the end of the text


class Six:
    """Makes a call of a name with texts, and with lists of them."""

    def __init__(self):
        self.library, self.buffer = ctypes.CDLL(str(driving.SHARED)), ctypes.create_string_buffer(1 << 20)

    def reply(self, name, *given, limit=SIZE_MAX):
        """Gives what the reply says, and the text."""
        words = []
        for it in given:
            words += [it] if isinstance(it, bytes) else [(Text * max(1, len(it)))(*[(text, len(text)) for text in it])]
            words.append(ctypes.c_size_t(len(it)))
        function = getattr(self.library, f"mergejoin_{name}")
        function.restype = Reply
        reply = function(*words, self.buffer, ctypes.c_size_t(len(self.buffer)), ctypes.c_size_t(limit))
        assert reply.places <= reply.length <= len(self.buffer) and reply.flags == 0
        return Said(reply.status, reply.first, reply.second, reply.total, self.buffer[:reply.length], reply.places)

    def of_texts(self, name, texts):
        """Gives the same of texts in one list, as those of tests/common/rows.py."""
        given = [texts] if name == "join" else [texts[0], texts[1:]] if name in ("replay", "merge") else texts
        return self.reply(name, *given)

    def __call__(self, name, *given):
        """Gives the status, the total and the text, or of a conflict the array of its places."""
        said = self.reply(name, *given)
        return said.status, said.total, said.text[-said.places:] if said.status == driving.CONFLICT else said.text

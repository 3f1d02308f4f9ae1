"""A patch log of the shared library, as a program in another language calls it."""

import ctypes

from calling import SIZE_MAX, Reply
from driving import SHARED


class Identity(ctypes.Structure):
    _fields_ = [("sender", ctypes.c_uint64), ("number", ctypes.c_uint64)]


class PatchLog:
    def __init__(self, epoch, start):
        self.library, self.handle = ctypes.CDLL(str(SHARED)), ctypes.c_void_p()
        reply, _ = self.call("start", ctypes.c_uint64(epoch), *text_of(start))
        assert reply.status == 0

    def call(self, name, *given):
        """Gives the reply and the text."""
        function, out = getattr(self.library, f"mergejoin_patch_log_{name}"), ctypes.create_string_buffer(1 << 16)
        function.restype = Reply
        reply = function(ctypes.byref(self.handle), *given, out, ctypes.c_size_t(len(out)), ctypes.c_size_t(SIZE_MAX))
        assert reply.length <= len(out) and not reply.flags
        return reply, out.raw[:reply.length].decode()

    def receive(self, epoch, identity, patch):
        """Gives the word for what became of the message."""
        reply, word = self.call("receive", *map(ctypes.c_uint64, (epoch, *identity)), *text_of(patch))
        assert reply.status == 0, word
        return word

    def document(self):
        reply, text = self.call("document")
        assert reply.status == 0, text
        return text

    def conflicts(self):
        reply, text = self.call("conflicts")
        assert reply.status == 0, text
        return text

    def count(self):
        reply, text = self.call("count")
        assert reply.status == 0, text
        return int(text)

    def decide(self, chosen):
        """Gives the status, and the number of the first identity that it is about."""
        identities = (Identity * max(1, len(chosen)))(*(Identity(*it) for it in chosen))
        reply, _ = self.call("decide", identities, ctypes.c_size_t(len(chosen)))
        return reply.status, reply.first


def text_of(text):
    data = text.encode()
    return data, ctypes.c_size_t(len(data))

"""JSON Merge Patches (RFC 7396), JSON Patches (RFC 6902) and JSON Pointers (RFC 6901) over texts.

Replicas of one JSON document that exchange merge patches end with the same document, in whatever order each of them receives
the patches and with any repeats, as long as no two patches conflict:

>>> import mergejoin
>>> patches = ['{"author": "Ada"}', '{"title": null}']
>>> mergejoin.replay('{"title": "Notes"}', patches)
'{"author":"Ada"}'
>>> mergejoin.replay('{"title": "Notes"}', patches[::-1] + patches)
'{"author":"Ada"}'

Two patches conflict if both say something of one place and say different things. The join of patches that do not is one
merge patch with the effect of all:

>>> mergejoin.join(patches)
'{"author":"Ada","title":null}'
>>> try:
...     mergejoin.join(patches + ['{"author": "Bob"}'])
... except mergejoin.Conflict as conflict:
...     print(conflict.first, conflict.second, conflict.places)
0 2 ['/author']

Each document and each patch is a JSON text of its own: a str, or UTF-8 in bytes, a bytearray or a memoryview. Results are compact,
with names in the order of their UTF-8 bytes. Numbers are whole, from -2**63 to 2**64 - 1; a text with another is refused, and so is
one of more than 126 levels. mergejoin.objects has the same functions over dict, list and so on.

A program that keeps a document has a Replica: it stays in memory, so that what a patch costs depends on the patch, and hardly on the
document. Patches joins patches as they come, and a PatchLog also stores those that conflict, until it is decided which of them count.

The calls are those of the library for C in this package, whose answers are proved; the package itself is tested alone. A call gives up
the interpreter's lock while it runs, can't be cancelled, and needs 256 KiB of stack, which threading.stack_size() should leave. It takes
mostly 10 to 100 bytes of memory for each byte that it reads, and 360 of the worst texts that were tried, in addition to what copies and
the answer take.

A short text can ask for all memory: a JSON Patch doubles a document with each copy, and two patches may conflict at very many places.
So call with the texts of strangers and a limit, in bytes: TooLarge is raised if the result, or what is made on the way, would take more.
Of what stays in memory, and of conflicts(), a limit bounds the answer alone: bound the lengths of the texts too.
"""

from . import _library, objects
from ._errors import (Conflict, DocumentError, FormError, InputError, MergejoinError, Missing, NoPatches, PatchError, Pending, PointerError,
                      Refused, TooLarge)
from ._live import Arrival, ConflictingPair, Identity, Patches, PatchLog, Replica
from ._texts import conflicts, get, join, merge, patch, replay, rewrite

__all__ = [
    "join", "replay", "merge", "rewrite", "patch", "get", "conflicts", "Replica", "Patches", "PatchLog", "Identity", "Arrival",
    "ConflictingPair", "objects", "MergejoinError", "Conflict", "NoPatches", "Refused", "Missing", "InputError", "DocumentError", "PatchError",
    "FormError", "PointerError", "TooLarge", "Pending",
]

__version__ = _library.VERSION

# They are shown, and pickled, by the name that users know.
for _name in __all__:
    if isinstance(globals()[_name], type):
        globals()[_name].__module__ = __name__
del _name

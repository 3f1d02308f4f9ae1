"""The calls over texts."""

import json
from typing import Iterable, List, Optional, Tuple, TypeVar, Union, overload

from . import _library
from ._errors import Missing, PatchError, TooLarge, of_patch, ordered

Given = Union[str, bytes, bytearray, memoryview]
Pair = Tuple[int, int, List[str]]
_Default = TypeVar("_Default")
_ABSENT = object()
# The number of a later start, whose patches a log reads and does not store.
_EARLY = 1
# The numbers of the texts of conflicts() after which its limit is looked at.
_LOOKED_AT = {2**power for power in range(4, 64)}


def join(texts: Iterable[Given], *, limit: Optional[int] = None) -> str:
    """Return one merge patch with the effect of all of texts, in any order and with any repeats.

    It may be given in the place of the patches, to this function again too: so patches can be joined in groups, and the
    joins joined, with the same result.

    >>> join(['{"author": "Ada"}', '{"title": null}'])
    '{"author":"Ada","title":null}'
    >>> join(['{"author": "Ada"}', '{"title": null}', '{"author": "Bob"}'])
    Traceback (most recent call last):
    mergejoin.Conflict: conflict: patches 0 and 2 at "/author"

    PatchError is looked for first, then NoPatches, Conflict and TooLarge.
    """
    return _library.join(texts, limit)


def replay(start: Given, texts: Iterable[Given], *, limit: Optional[int] = None) -> str:
    """Return the document that merge patches make of start, in any order and with any repeats.

    Of no patches it is the start. Unlike merge() it refuses patches that conflict.

    >>> replay('{"title": "Notes"}', ['{"author": "Ada"}', '{"title": null}'])
    '{"author":"Ada"}'

    DocumentError is looked for first, then PatchError, Conflict and TooLarge.
    """
    return _library.replay(start, texts, limit)


def merge(document: Given, texts: Iterable[Given], *, limit: Optional[int] = None) -> str:
    """Return the document after merge patches, each applied to what the earlier ones left.

    If two conflict, their order decides.

    >>> merge('{"title": "Notes"}', ['{"title": "Draft"}', '{"title": "Book"}'])
    '{"title":"Book"}'

    DocumentError is looked for first, then PatchError and TooLarge.
    """
    return _library.merge(document, texts, limit)


def rewrite(document: Given, patch: Given, *, limit: Optional[int] = None) -> str:
    """Return a merge patch as a JSON Patch (RFC 6902) for document.

    It has first a test of each place that changes and where the document has something, and then one edit for each place
    that changes.

    >>> rewrite('{"title": "Notes"}', '{"title": "Book"}')
    '[{"op":"test","path":"/title","value":"Notes"},{"op":"replace","path":"/title","value":"Book"}]'

    DocumentError is looked for first, then PatchError and TooLarge.
    """
    return _library.rewrite(document, patch, limit)


def patch(document: Given, json_patch: Given, *, limit: Optional[int] = None) -> str:
    """Return the document after a JSON Patch (RFC 6902).

    >>> patch('[1]', '[{"op": "add", "path": "/-", "value": 2}]')
    '[1,2]'
    >>> patch('[1]', '[{"op": "remove", "path": "/1"}]')
    Traceback (most recent call last):
    mergejoin.Refused: operation 0: missing

    A short JSON Patch can make a document that takes all memory, by copies. Give texts of strangers a limit:

    >>> doubled = '[{"op": "copy", "from": "", "path": "/a"},{"op": "copy", "from": "", "path": "/b"}]'
    >>> patch('{}', doubled, limit=3_000)
    Traceback (most recent call last):
    mergejoin.TooLarge: too large

    DocumentError is looked for first, then PatchError, FormError, Refused and TooLarge.
    """
    return _library.patch(document, json_patch, limit)


@overload
def get(document: Given, pointer: Given, *, limit: Optional[int] = None) -> str: ...
@overload
def get(document: Given, pointer: Given, default: _Default, *, limit: Optional[int] = None) -> Union[str, _Default]: ...
def get(document: Given, pointer: Given, default: object = _ABSENT, *, limit: Optional[int] = None) -> object:
    """Return the part of document that a JSON Pointer (RFC 6901) names, or default if the document has no part there.

    >>> get('{"tags": ["a", "b"]}', '/tags/1')
    '"b"'
    >>> get('{"tags": ["a", "b"]}', '/tags/2', None)

    DocumentError is looked for first, then PointerError, and then Missing if no default is given.
    """
    try:
        return _library.get(document, pointer, limit)
    except Missing:
        if default is _ABSENT:
            raise
        return default


def conflicts(texts: Iterable[Given], *, limit: Optional[int] = None) -> List[Pair]:
    """Return all pairs of texts that conflict: the numbers of the two, and all places at which they do.

    The pairs are in order, and the places of each in the order of paths. If none conflict, the list is empty.

    >>> conflicts(['{"a": 1, "b": {"c": 2}}', '{"d": 3}', '{"a": 4, "b": 5}'])
    [(0, 2, ['/a', '/b'])]

    A text that conflicts with no other costs what it is long; one that does may cost what all texts are long. PatchError is raised if a
    text is not a document, and TooLarge if the list takes more than the limit, as PatchLog.first_conflicts() counts it. With a limit that is
    looked at each time that the texts are twice as many. So it is seen early, if the texts are in no order.
    """
    log, fault = _library.PatchLog(0, "null"), None
    for number, text in enumerate(ordered(texts, "texts")):
        try:
            log.receive(0 if fault is None else _EARLY, number, 0, text)
        except PatchError as error:
            raise of_patch(error, f"patch {number}", number) from None
        if limit is not None and number in _LOOKED_AT and fault is None:
            fault = _too_large(log, limit)
    if fault:
        raise fault
    pairs = json.loads(_all_conflicts(log, limit))
    return [(pair["first"][0], pair["second"][0], pair["places"]) for pair in pairs]


def _all_conflicts(log: _library.PatchLog, limit: Optional[int]) -> str:
    """Return the text of all pairs."""
    text, more = log.conflicts(limit)
    if more:
        raise TooLarge(0)
    return text


def _too_large(log: _library.PatchLog, limit: int) -> Optional[TooLarge]:
    try:
        _all_conflicts(log, limit)
    except TooLarge as error:
        return error
    return None

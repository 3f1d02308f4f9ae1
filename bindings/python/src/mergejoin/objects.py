"""The functions of mergejoin over what json makes of texts: dict, list, str, int, bool and None.

>>> from mergejoin import objects
>>> objects.replay({"title": "Notes"}, [{"author": "Ada"}, {"title": None}])
{'author': 'Ada'}

A tuple is an array too. What is not a document is refused before the call, by an error that has its place: a float,
also a whole one, and an int out of -2**63 to 2**64 - 1 as "number not whole"; a dict with a key that is not a str as "name
not text"; 127 levels and more, as of what contains itself, as "too deep"; and all else, as bytes or half of a surrogate pair, as
"not JSON".

>>> objects.join([{"price": 5}, {"items": [{"price": 9.5}]}])
Traceback (most recent call last):
mergejoin.PatchError: patch 1: number not whole at "/items/0/price"

The errors are those of mergejoin, and limit bounds what it bounds there. Texts are faster: what is read from a file or from a network
need not become objects.
"""

import json
from typing import Any, Iterable, Iterator, List, Optional, Tuple

from . import _library, _texts
from ._errors import DocumentError, Missing, PatchError, ordered, with_line
from ._texts import Given, Pair

__all__ = ["join", "replay", "merge", "rewrite", "patch", "get", "conflicts"]

_DEEPEST = 126
_LEAST, _MOST = -2**63, 2**64 - 1


_read = json.JSONDecoder().raw_decode
_ABSENT = object()


def join(patches: Iterable[object], *, limit: Optional[int] = None) -> Any:
    """Return one merge patch with the effect of all patches, as mergejoin.join().

    >>> join([{"a": {"x": 1}}, {"a": {"y": None}}])
    {'a': {'x': 1, 'y': None}}
    """
    return _read(_library.join(_all_written(patches), limit))[0]


def replay(start: object, patches: Iterable[object], *, limit: Optional[int] = None) -> Any:
    """Return the document that merge patches make of start, as mergejoin.replay().

    >>> replay({"k": 0}, [{"a": 1}, {"k": None}])
    {'a': 1}
    """
    return _read(_library.replay(_written(start), _all_written(patches), limit))[0]


def merge(document: object, patches: Iterable[object], *, limit: Optional[int] = None) -> Any:
    """Return the document after merge patches in turn, as mergejoin.merge().

    >>> merge({"k": 0}, [{"k": 1}, {"k": 2}])
    {'k': 2}
    """
    return _read(_library.merge(_written(document), _all_written(patches), limit))[0]


def rewrite(document: object, patch: object, *, limit: Optional[int] = None) -> List[Any]:
    """Return a merge patch as a JSON Patch for document, as mergejoin.rewrite().

    >>> rewrite({}, {"k": 1})
    [{'op': 'add', 'path': '/k', 'value': 1}]
    """
    edits: List[Any] = _read(_library.rewrite(_written(document), _written(patch, 0), limit))[0]
    return edits


def patch(document: object, json_patch: object, *, limit: Optional[int] = None) -> Any:
    """Return the document after a JSON Patch, as mergejoin.patch().

    >>> patch([1], [{"op": "add", "path": "/-", "value": 2}])
    [1, 2]
    """
    return _read(_library.patch(_written(document), _written(json_patch, 0), limit))[0]


def get(document: object, pointer: Given, default: Any = _ABSENT, *, limit: Optional[int] = None) -> Any:
    """Return the part of document that a JSON Pointer names, or default if it has none there, as mergejoin.get().

    >>> get({"tags": ["a", "b"]}, "/tags/1")
    'b'
    >>> get({"tags": ["a", "b"]}, "/tags/2", "c")
    'c'
    """
    try:
        return _read(_library.get(_written(document), pointer, limit))[0]
    except Missing:
        if default is _ABSENT:
            raise
        return default


def conflicts(patches: Iterable[object], *, limit: Optional[int] = None) -> List[Pair]:
    """Return all pairs of patches that conflict, as mergejoin.conflicts().

    >>> conflicts([{"a": 1}, {"b": 2}, {"a": 3}])
    [(0, 2, ['/a'])]
    """
    return _texts.conflicts(_all_written(patches), limit=limit)


def _all_written(patches: Iterable[object]) -> List[bytes]:
    if not isinstance(patches, (list, tuple)):
        patches = ordered(patches, "patches")
    return [_written(patch, number) for number, patch in enumerate(patches)]


def _written(value: object, number: Optional[int] = None) -> bytes:
    """Gives the text of a document, or of the patch of a number, or raises what is wrong with it."""
    text = _library.written(value)
    if text is None:
        cause, steps = _fault(value, 0) or ("not JSON", [])
        place = "".join("/" + step.replace("~", "~0").replace("/", "~1") for step in reversed(steps))
        error = DocumentError(cause, place) if number is None else PatchError(number, cause, place)
        raise with_line(error, f"{error} at {json.dumps(place, ensure_ascii=False)}")
    return text


def _fault(value: object, level: int) -> Optional[Tuple[str, List[str]]]:
    """Gives what is wrong with a value at a level, and the steps to there, the last first, or nothing."""
    if value is None or isinstance(value, bool):
        return None
    if isinstance(value, str):
        return None if _is_text(value) else ("not JSON", [])
    if isinstance(value, int):
        return None if _LEAST <= value <= _MOST else ("number not whole", [])
    if isinstance(value, float):
        return "number not whole", []
    if not isinstance(value, (dict, list, tuple)):
        return "not JSON", []
    if level == _DEEPEST:
        return "too deep", []
    if isinstance(value, dict):
        for name in value:
            if not isinstance(name, str):
                return "name not text", []
            if not _is_text(name):
                return "not JSON", []
    for step, part in _parts(value):
        fault = _fault(part, level + 1)
        if fault:
            fault[1].append(step)
            return fault
    return None


def _is_text(value: str) -> bool:
    """Whether it has no half of a surrogate pair."""
    try:
        value.encode("utf-8")
    except UnicodeEncodeError:
        return False
    return True


def _parts(value: object) -> Iterator[Tuple[str, object]]:
    if isinstance(value, dict):
        yield from value.items()
    elif isinstance(value, (list, tuple)):
        for number, part in enumerate(value):
            yield str(number), part

"""Why there is no text."""

import json
from collections.abc import Mapping, Set
from typing import Any, Dict, Iterable, List, Optional, Tuple, Type, TypeVar, Union

from . import _library

_Item = TypeVar("_Item")
_Error = TypeVar("_Error", bound="MergejoinError")


class MergejoinError(Exception):
    """What all errors of this package are, but MemoryError and TypeError.

    The text of one is a line, with places as JSON strings. Patches and operations are numbered from 0.
    """

    _line = ""

    def _carry(self, line: str, **carried: object) -> None:
        self.args = tuple(carried.values())
        vars(self).update(carried, _line=line)

    def __str__(self) -> str:
        return self._line or super().__str__()


class Conflict(MergejoinError):
    """Two patches conflict: both say something of one place, and say different things.

    first and second are the numbers of the two: second is the least number of a patch that conflicts with an earlier one,
    and first the least of those. places are all places at which these two conflict, as JSON Pointers, in the order of paths.

    Replica and Patches keep no numbers, so there they are None. If a limit was given, places are the first ones that fit, and total
    says how many there are in all. A Patches holds the first places alone, up to 64 kB: more says whether there are more than total.
    """

    first: Union[int, Any]
    second: Union[int, Any]
    places: List[str]
    total: int
    more: bool

    def __init__(self, first: Optional[int], second: Optional[int], places: List[str], total: Optional[int] = None,
                 more: bool = False) -> None:
        which = "two patches" if first is None else f"patches {first} and {second}"
        total = len(places) if total is None else total
        self._carry(f"conflict: {which}", first=first, second=second, places=places, total=total, more=more)


class NoPatches(MergejoinError):
    """There are no patches to join."""

    _line = "no patches"


class Refused(MergejoinError):
    """An operation of a JSON Patch can't be done.

    operation is its number, and cause is "into itself", "remove of root", "missing", "no place", "too deep" or "test failed".

    Of PatchLog.decide() there is no operation: it is None, and cause "no number is left for a start".
    """

    operation: Optional[int]
    cause: str

    def __init__(self, operation: Optional[int], cause: str) -> None:
        self._carry(cause, operation=operation, cause=cause)


class Missing(MergejoinError, LookupError):
    """The document has no part where the pointer points.

    Of PatchLog.decide(): no patch is stored under an identity, and number is which of the chosen ones it is.
    """

    number: int

    def __init__(self, number: int = 0) -> None:
        self._carry("missing", number=number)


class TooLarge(MergejoinError):
    """The result, or something that is made on the way to it, is larger than the limit.

    number is, of patch(), that of the operation whose result weighs more; of rewrite(), how many of its operations fit; and else 0.

    key is that of the patches whose pairs are too large, if mergejoin.dask met it, and else None.
    """

    number: int
    key: Any = None

    def __init__(self, number: int = 0) -> None:
        self._carry("too large", number=number)


class Pending(MergejoinError):
    """A Replica has received the patch, or Patches have taken it, and memory ran out before it could be shown. It is not lost: the next
    call shows it.
    """

    _line = "pending"


class InputError(MergejoinError, ValueError):
    """What is given is not a document, not a patch, not a JSON Patch or not a pointer: each has its own error. cause says why."""

    cause: str


class DocumentError(InputError):
    """What is given as a document, or as a start, is not one.

    cause is "not JSON", "number not whole" (a text has whole numbers from -2**63 to 2**64 - 1) or "too deep" (it has at most 126 levels).

    place is the JSON Pointer of the first number that is not whole, or of the first part that is too deep; else it is None. If
    mergejoin.objects found the error before the call, it is the place of the value that is wrong, and cause may be "name not text" too,
    of the object at that place.
    """

    place: Optional[str]

    def __init__(self, cause: str, place: Optional[str] = None) -> None:
        self._carry(f"document: {cause}", cause=cause, place=place)


class PatchError(InputError):
    """A patch is not a document. number is that of the patch, and cause and place are as those of a DocumentError.

    key is that of the patch, if mergejoin.dask met it, and else None.
    """

    number: int
    place: Optional[str]
    key: Any = None

    def __init__(self, number: int, cause: str, place: Optional[str] = None) -> None:
        self._carry(f"patch {number}: {cause}", number=number, cause=cause, place=place)


class FormError(InputError):
    """What is given as a JSON Patch is a document, but not a JSON Patch.

    cause is "not an array", and operation 0; or operation is the number of what is not an operation, and cause "not an object",
    "no op", "unknown op", "no path", "no from", "bad pointer" or "no value".
    """

    operation: int

    def __init__(self, operation: int, cause: str) -> None:
        self._carry(cause, operation=operation, cause=cause)


class PointerError(InputError):
    """What is given as a JSON Pointer is not one.

    offset is where it goes wrong, in bytes, and cause is "no slash", "bad tilde" or "not UTF-8".
    """

    offset: int

    def __init__(self, offset: int, cause: str) -> None:
        self._carry(f"pointer: {cause}", offset=offset, cause=cause)


def ordered(given: Iterable[_Item], what: str) -> Iterable[_Item]:
    """Return what is given in the place of a list, of which it may be any that has an order: not a mapping, nor a set, nor one text."""
    if isinstance(given, (str, bytes, bytearray, memoryview, Mapping, Set)):
        raise TypeError(f"{what} are to be given one by one, as in a list, and not as {type(given).__name__}")
    return given


def with_line(error: _Error, line: str) -> _Error:
    """Return the error, whose text is this line."""
    error._line = line
    return error


def of_patch(error: PatchError, which: str, number: int = 0) -> PatchError:
    """Return the same error of a patch of another number, or of a key: its line begins otherwise."""
    return with_line(PatchError(number, error.cause, error.place), which + str(error)[str(error).index(": "):])


def error_of(status: int, first: int, second: int, total: int, line: str, array: str, more: bool) -> Exception:
    """Return the error of a reply without a result: of its line, and of the JSON array of places at the end of its text. A conflict has
    neither if memory ran out for them.
    """
    before, _, after = line.partition(": ")
    cause, places = (after or before).partition(" at ")[0], json.loads(array or "[]")
    pair, place = (first, second) if first != second else (None, None), places[0] if places else None
    made: Dict[int, Tuple[Type[MergejoinError], Tuple[Any, ...]]] = {
        _library.CONFLICT: (Conflict, (*pair, places, total, more)),
        _library.NO_PATCHES: (NoPatches, ()),
        _library.REFUSED: (Refused, (first if after else None, cause)),
        _library.MISSING: (Missing, (first,)),
        _library.DOCUMENT: (DocumentError, (cause, place)),
        _library.PATCH: (PatchError, (first, cause, place)),
        _library.FORM: (FormError, (first, cause)),
        _library.POINTER: (PointerError, (first, cause)),
        _library.PENDING: (Pending, ()),
        _library.TOO_LARGE: (TooLarge, (first,)),
    }
    if status not in made:
        return RuntimeError(f"mergejoin returns status {status}: {line}")
    kind, carried = made[status]
    error = kind(*carried)
    return with_line(error, line or str(error))

"""What stays in memory: a replica, patches without a start, and a log of patches that may conflict."""

import copyreg
import enum
import json
from typing import Any, Dict, Iterable, List, NamedTuple, NoReturn, Optional, Tuple, Type, TypeVar, Union, overload

from . import _library
from ._errors import Missing, NoPatches, TooLarge
from ._texts import Given

_Default = TypeVar("_Default")
_ABSENT = object()
_SHOWN = 60  # characters of a text that repr() shows


def _shown(text: str) -> str:
    return text if len(text) <= _SHOWN else f"{text[:_SHOWN]}.. of {len(text):,} characters"


_Added = Tuple[Optional[Dict[str, Any]], Dict[str, Any]]


def _added_to(it: object) -> Optional[_Added]:
    """The attributes and the slots that a subclass added, if it did."""
    names = [name for name in copyreg._slotnames(type(it)) if name != "_held"]  # type: ignore[attr-defined]
    slots = {name: getattr(it, name) for name in names if hasattr(it, name)}
    named = getattr(it, "__dict__", None)
    return (named, slots) if named or slots else None


def _add_to(it: object, added: _Added) -> None:
    """Gives a copy what a subclass added."""
    for name, value in {**(added[0] or {}), **added[1]}.items():
        object.__setattr__(it, name, value)


def _replica(kind: "Type[Replica]", document: str, joined: Optional[str]) -> "Replica":
    """A replica that was pickled. The join changes nothing of a document that shows it."""
    replica = kind.__new__(kind)
    replica._held = _library.Replica(document)
    if joined is not None:
        replica._held.receive(joined, None)
    return replica


def _patches(kind: "Type[Patches]", kept: str) -> "Patches":
    """Patches that were pickled."""
    patches = kind.__new__(kind)
    patches._held = _library.Patches()
    patches._held.from_kept(kept)
    return patches


class Replica:
    """A replica of one document: it begins with a start, receives merge patches, and shows what they make of the start.

    Patches may arrive in any order and with any repeats. What one costs depends on the patch, and hardly on the document
    or on how many came before.

    >>> replica = Replica('{"title": "Notes"}')
    >>> replica.receive('{"author": "Ada"}')
    >>> replica.receive('{"title": null}')
    >>> replica.document()
    '{"author":"Ada"}'
    >>> replica.joined()
    '{"author":"Ada","title":null}'
    >>> replica.get("/author")
    '"Ada"'

    A patch that conflicts with what was received is refused, with all places, and changes nothing:

    >>> replica.receive('{"author": "Bob"}')
    Traceback (most recent call last):
    mergejoin.Conflict: conflict: two patches at "/author"

    The start and the patches are not kept: a replica has its document, and the join of what it received. Two replicas are equal
    if they have the same of both. It pickles as these two texts, with what a subclass adds, and copies. Any threads may use it: they
    take it one after the other.
    """

    __slots__ = ("_held", "__weakref__")
    __hash__ = None  # type: ignore[assignment]  # it changes

    def __init__(self, start: Given) -> None:
        """Begin with a start. DocumentError is raised if it is not a document."""
        self._held = _library.Replica(start)

    def receive(self, patch: Given, *, limit: Optional[int] = None) -> None:
        """Receive a merge patch, which is shown then. One that was received before changes nothing.

        PatchError is raised if it is not a document, and Conflict if it conflicts with what was received: with all places, or with
        the first ones that fit into the limit. If memory runs out, it is MemoryError, or Pending if the patch is received all the
        same. After all but Pending nothing has changed.
        """
        self._held.receive(patch, limit)

    def document(self, *, limit: Optional[int] = None) -> str:
        """Return the document: what replay() returns of the start and of all that was received.

        TooLarge is raised if it is longer than the limit.
        """
        return self._held.document(limit)

    def joined(self, *, limit: Optional[int] = None) -> str:
        """Return the join of all that was received, which may be sent in its place.

        NoPatches is raised if nothing was, and TooLarge if it is longer than the limit.
        """
        return self._held.joined(limit)

    @overload
    def get(self, pointer: Given, *, limit: Optional[int] = None) -> str: ...
    @overload
    def get(self, pointer: Given, default: _Default, *, limit: Optional[int] = None) -> Union[str, _Default]: ...
    def get(self, pointer: Given, default: object = _ABSENT, *, limit: Optional[int] = None) -> object:
        """Return the part of the document that a JSON Pointer names, or default if the document has no part there.

        PointerError is raised if it is not a pointer, Missing if no default is given, and TooLarge.
        """
        try:
            return self._held.get(pointer, limit)
        except Missing:
            if default is _ABSENT:
                raise
            return default

    def _texts(self) -> Tuple[str, Optional[str]]:
        """The document, and the join if something was received: also of what another thread receives in between."""
        document = self.document()
        try:
            return document, self.joined()
        except NoPatches:
            return document, None

    def __eq__(self, other: object) -> bool:
        if not isinstance(other, Replica):
            return NotImplemented
        return self._texts() == other._texts()

    def __repr__(self) -> str:
        return f"<mergejoin.Replica {_shown(self.document())}>"

    def __reduce__(self) -> Tuple[Any, ...]:
        return _replica, (type(self), *self._texts()), _added_to(self)

    def __setstate__(self, state: Union[_Added, str]) -> None:
        """Takes what a subclass added, or the join, as version 0.3 pickled it."""
        if isinstance(state, str):
            self._held.receive(state, None)
        else:
            _add_to(self, state)


class Patches:
    """What a combiner keeps of merge patches: their join.

    Give it patches by add(), and what others were given by add_all(); text() is their join. Whatever the order, the groups
    and the repeats, the result is the same:

    >>> one, other = Patches(), Patches()
    >>> one.add('{"author": "Ada"}')
    >>> other.add('{"title": null}')
    >>> other.add('{"author": "Ada"}')
    >>> one.add_all(other)
    >>> one.text()
    '{"author":"Ada","title":null}'

    If two patches conflict, a Patches still takes patches, and reads them, so that a text which is not a patch raises
    PatchError in every order. It is text() that raises Conflict, in each order too:

    >>> one.add('{"author": "Bob"}')
    >>> one.add('{"author": ')
    Traceback (most recent call last):
    mergejoin.PatchError: patch 0: not JSON
    >>> one.text()
    Traceback (most recent call last):
    mergejoin.Conflict: conflict: two patches at "/author"

    What a patch costs depends on the patch, and hardly on how many there are. A Patches pickles as one text, with what a subclass adds,
    and copies: give it to a process or keep it in a file. Two are equal if they pickle as the same text. Any threads may use it: they
    take it one after the other.
    """

    __slots__ = ("_held", "__weakref__")
    __hash__ = None  # type: ignore[assignment]  # it changes

    def __init__(self) -> None:
        self._held = _library.Patches()

    def add(self, text: Given) -> None:
        """Take one more merge patch.

        If it is not a document, PatchError is raised, and this stays as it was. If memory runs out, it is Pending if
        the patch is taken, and MemoryError if not: add it again, since a repeat changes nothing.
        """
        self._held.add(text)

    def add_all(self, other: "Patches") -> None:
        """Take all that another Patches was given, which stays as it is. It costs what the other's join costs."""
        if not isinstance(other, Patches):
            raise TypeError(f"another Patches is wanted, not {type(other).__name__}")
        taken = _library.Patches()
        taken.from_kept(other._kept())
        self._held.combine(taken)

    def text(self, *, limit: Optional[int] = None) -> str:
        """Return the join of all patches that were given, as join() does.

        If there are none, NoPatches is raised, and if two conflict, Conflict: with the places at which this was seen
        first, which may be others in another order, and without the numbers of the two, which no join knows. Give the
        texts themselves to conflicts(), which returns all pairs and their places. TooLarge is raised if it is longer than the limit.
        """
        return self._held.text(limit)

    def _kept(self) -> str:
        """One text: the join; nothing of no patches; or the places of a conflict after a "!"."""
        return self._held.kept(None)

    def __eq__(self, other: object) -> bool:
        if not isinstance(other, Patches):
            return NotImplemented
        return self._kept() == other._kept()

    def __repr__(self) -> str:
        return f"<mergejoin.Patches {_shown(self._kept()) or 'of no patches'}>"

    def __reduce__(self) -> Tuple[Any, ...]:
        return _patches, (type(self), self._kept()), _added_to(self)

    def __setstate__(self, state: Union[_Added, str]) -> None:
        """Takes what a subclass added, or the text that version 0.3 pickled."""
        if isinstance(state, str):
            self._held.from_kept(state)
        else:
            _add_to(self, state)


class Identity(NamedTuple):
    """Who made a patch, and the sender's number for it: two whole numbers from 0 to 2**64 - 1. No two patches have the same."""

    sender: int
    number: int


class Arrival(enum.Enum):
    """What became of a message: STORED; or nothing changed, since a patch with its identity is stored (REPEAT), or it is of an earlier
    start (LATE), or of a later one, for which the caller keeps it (EARLY).
    """

    STORED = "stored"
    REPEAT = "repeat"
    LATE = "late"
    EARLY = "early"


class ConflictingPair(NamedTuple):
    """Two patches that conflict, of which first has the lower identity, and all places at which they do."""

    first: Identity
    second: Identity
    places: List[str]


def _pairs(text: str) -> List[ConflictingPair]:
    """The pairs of which this is the text."""
    return [ConflictingPair(Identity(*pair["first"]), Identity(*pair["second"]), pair["places"]) for pair in json.loads(text)]


class PatchLog:
    """A replica that stores the patches with their identities, so that it can follow a decision if some of them conflict.

    It begins with a start and the start's number, its epoch. It shows the start with the patches that conflict with no other, whatever
    the order in which they arrive, and lists the pairs that conflict:

    >>> log = PatchLog(1, '{"colour": "red"}')
    >>> log.receive(1, (1, 1), '{"colour": "blue"}')
    <Arrival.STORED: 'stored'>
    >>> log.receive(1, (2, 1), '{"colour": "green"}')
    <Arrival.STORED: 'stored'>
    >>> log.receive(1, (2, 2), '{"size": 2}')
    <Arrival.STORED: 'stored'>
    >>> log.document()
    '{"colour":"red","size":2}'
    >>> log.conflicts()
    [ConflictingPair(first=Identity(sender=1, number=1), second=Identity(sender=2, number=1), places=['/colour'])]

    decide() ends the start by some of them, which begins the next one:

    >>> log.decide([(1, 1), (2, 2)])
    >>> log.document(), log.epoch
    ('{"colour":"blue","size":2}', 2)

    Any threads may use it: they take it one after the other. Nothing of it is on disk: store the messages that it was given, and
    give them to a new one. It neither pickles nor copies. docs/NEW-START.md of the sources says how replicas agree on a decision.
    """

    __slots__ = ("_held", "__weakref__")

    def __init__(self, epoch: int, start: Given) -> None:
        """Begin with a start of this number, from 0 to 2**64 - 1. DocumentError is raised if the start is not a document."""
        self._held = _library.PatchLog(epoch, start)

    def __repr__(self) -> str:
        return f"<mergejoin.PatchLog {self.epoch} {_shown(self.document())}>"

    def __reduce__(self) -> NoReturn:
        raise TypeError("a PatchLog is neither pickled nor copied: give its messages to a new one")

    @property
    def epoch(self) -> int:
        """The number of the start. A decision is for the start of one number, and is handed on while this is it."""
        return self._held.epoch()

    def receive(self, epoch: int, identity: Tuple[int, int], patch: Given) -> Arrival:
        """Receive a message: a merge patch, its identity, and the number of the start that it was made for.

        PatchError is raised if the patch is not a document, whatever the message is of. Then, and if memory runs out, nothing has
        changed. What a patch costs that conflicts with nothing depends on the patch; one that does may cost all that is stored.
        """
        return Arrival(self._held.receive(epoch, *identity, patch))

    def document(self, *, limit: Optional[int] = None) -> str:
        """Return the document: the start with the patches that conflict with no other. TooLarge is raised as by join()."""
        return self._held.document(limit)

    def count(self) -> int:
        """Return how many patches are stored. What a log takes and costs is bounded by this and by the lengths of the patches."""
        return int(self._held.count())

    def conflicts(self, *, limit: Optional[int] = None) -> List[ConflictingPair]:
        """Return each two patches that conflict, once, in the order of their identities.

        TooLarge is raised if the list takes more than the limit: then first_conflicts() returns its beginning.
        """
        pairs, more = self.first_conflicts(limit=limit)
        if more:
            raise TooLarge(0)
        return pairs

    def first_conflicts(self, *, limit: Optional[int] = None) -> Tuple[List[ConflictingPair], bool]:
        """Return the pairs that come first, as many as take at most the limit, and whether a pair or a place is left out.

        A pair counts 64 bytes and its places, and a place 128, 8 for each token, and its bytes. The last pair may have the first of its
        places alone.
        """
        text, more = self._held.conflicts(limit)
        return _pairs(text), bool(more)

    def conflicts_of(self, identity: Tuple[int, int], *, limit: Optional[int] = None) -> Tuple[List[ConflictingPair], bool]:
        """Return the same of the pairs with one identity: with which others its patch conflicts.

        The list is empty if no patch is stored under it.
        """
        text, more = self._held.conflicts_of(*identity, limit)
        return _pairs(text), bool(more)

    def decide(self, chosen: Iterable[Tuple[int, int]], *, limit: Optional[int] = None) -> None:
        """End the start by the patches with these identities: what they make of it is the next start, and all patches are forgotten.

        After an error nothing has changed. Missing is raised if no patch is stored under the identity of its number among the chosen;
        Conflict if two of them conflict, with their numbers among the chosen; Refused if no number is left for a start.
        """
        self._held.decide(chosen, limit)

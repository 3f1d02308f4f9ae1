"""Joins of the patches of many documents by Dask, which is wanted by this module alone: an extra of the package.

The page MANY-MACHINES.md of the sources has logs in files, clusters of processes and of hosts, and what is done if patches
conflict.

Both functions send the texts of a key to one share. Each partition is grouped by key. For each share one pickle goes from there, with
the keys of the share and their texts. The pickles of a share come together in one task, which gives one partition of the result.

There may be very many keys, with one short text each. What costs most then is one object more for each of them. So the texts of a key
are in one piece, with a separator after each text but the last, and the pieces of a share are in one text.

A key and those that equal it have to go to one share on every machine. So the share of a str, or of a subclass, depends on its
characters, and that of a number on its value: 1, 1.0, True, Decimal(1) and Fraction(1) are one key. What equals one of these, as a
UserString or numpy.bool_, has its share. Keys of other kinds, as tuples, go to one share all together. If there are many of those, make
a str of each.
"""

import contextlib
import inspect
import math
import numbers
import pickle
import random
import zlib
from collections import defaultdict
from itertools import chain
from operator import getitem
from typing import Any, Callable, Dict, Iterable, List, Optional, Tuple, TypeVar, Union

import cloudpickle  # type: ignore[import]
from dask.bag import Bag
from dask.base import tokenize
from dask.highlevelgraph import HighLevelGraph

from . import Conflict, PatchError, TooLarge, conflicts, join
from ._errors import of_patch, with_line

_Given = Union[str, bytes]
# The texts of a key that were not read, in one piece; or a str, their join, if they were joined before they moved.
_Piece = Union[str, bytes, bytearray]
_Pieces = Dict[Any, _Piece]
# What a partition has for one share: the keys and their pieces, and the keys that were joined.
_Part = Tuple[List[Any], List[str], Dict[Any, str]]
_Pair = Tuple[str, str, List[str]]
_Text = TypeVar("_Text", str, bytes)
_Made = TypeVar("_Made")
_Key = Tuple[str, int, int]
_Graph = Dict[Tuple[Any, ...], Tuple[Any, ...]]  # of Dask: tasks by their keys

# The separators of the texts of a key, and of keys and of their pieces. No document has these characters.
_OF_TEXTS, _OF_KEYS = "\0", "\1"

# The kinds of keys that equal no str and no number.
_APART = (tuple, bytes, frozenset, type(None))

# How many shares there are at most, and tasks that give a share its part of a partition, if the caller does not say it.
_SHARES, _TASKS = 32, 50_000
# The bytes that a key's texts have in a partition if they are joined there in any case; and those by which a partition shows
# whether joins are much shorter than their texts.
_LARGE, _SAMPLE = 64_000, 32_000


def join_by_key(bag: Bag, split_out: Optional[int] = None, split_every: Optional[int] = None) -> Bag:
    """Return, of a bag of (key, text of a patch), the bag of (key, text of the join), with each key once.

    A key identifies a document: any value that hashes and pickles. If two patches of a key conflict, None is in the place of
    the join, so that one document does not stop the others: conflicts_by_key() returns the pairs.

    >>> import dask.bag
    >>> log = [("a", '{"x": 1}'), ("b", '{"x": 2}'), ("a", '{"y": null}'), ("a", '{"x": 1}'), ("b", '{"x": 3}')]
    >>> sorted(join_by_key(dask.bag.from_sequence(log, npartitions=3)).compute(scheduler="synchronous"))
    [('a', '{"x":1,"y":null}'), ('b', None)]

    Nothing depends on how the texts lie in partitions, on the order in which Dask joins them, on a text that arrives twice,
    or on a task that is run again. A text that is not a document raises PatchError, with its key, when the bag is computed. So
    it does if patches of that key conflict too. Its number is 0, since texts have no order.

    The result has split_out partitions, the shares: without it as many as the bag has, and at most 32. The texts and the
    joins of one share have to fit into the memory of one worker: if they don't, take a larger split_out.

    Most texts are read once, where their share is. A key is joined before it moves if it has 64 kB or more in its partition, or if
    the first joins of that partition are at most half as long as their texts.

    A task for each partition and share gives a share its part. If those are more than 50,000, the texts move by two levels: a
    task on the way takes what split_every partitions have for split_every shares. Without it that number is the square root of
    split_out. If it is given, there are two levels in any case, and with 1 or False one.
    """
    return _by_key(bag, "join", (_joins,), split_out, split_every, joins=True)


def conflicts_by_key(bag: Bag, split_out: Optional[int] = None, limit: Optional[int] = 4_000_000) -> Bag:
    """Return, of a bag of (key, text of a patch), the bag of (key, pairs) of the keys of which two patches conflict.

    The pairs are a list of (text, text, places), each once and sorted, and so are the texts of a pair. The places are those of
    mergejoin.conflicts().

    >>> import dask.bag
    >>> log = [("a", '{"x": 1}'), ("b", '{"x": 2}'), ("a", '{"y": null}'), ("a", '{"x": 1}'), ("b", '{"x": 3}')]
    >>> conflicts_by_key(dask.bag.from_sequence(log, npartitions=3)).compute(scheduler="synchronous")
    [('b', [('{"x": 2}', '{"x": 3}', ['/x'])])]

    As with join_by_key(), nothing depends on partitions, orders and repeats, a text that is not a document raises PatchError with
    its key, and the result has split_out partitions.

    Of n patches that all conflict there are n * (n - 1) / 2 pairs. So TooLarge is raised, with the key, if the pairs of a key are longer
    than the limit: as mergejoin.conflicts() has it, in bytes, of which a pair with a short place takes some 200. None is no limit.

    All texts of a key come together before one is read. So give it the texts of the keys for which join_by_key() has None, if the
    log is large.
    """
    return _by_key(bag, "conflicts", (_conflicting, limit), split_out, None, joins=False)


def _by_key(bag: Bag, word: str, made: Tuple[Any, ...], split_out: Optional[int], split_every: Optional[int], joins: bool) -> Bag:
    """Gives the bag of what a function makes of the texts of each share and of what it is given besides. If joins, those of a partition may
    be joined before they move.
    """
    shares = max(1, min(bag.npartitions, _SHARES)) if split_out is None else split_out
    if split_every is None:
        width = math.ceil(math.sqrt(shares)) if bag.npartitions * shares > _TASKS else 1
    else:
        width = split_every or 1
    if shares < 1 or width < 1:
        raise ValueError(f"split_out and split_every have to be 1 or more, not {split_out} and {split_every}")
    token = tokenize(bag, word, shares, width, made[1:])
    name, group, texts = f"{word}-by-key-{token}", f"group-by-key-{token}", f"texts-of-{tokenize(bag)}"
    graph, pickles = _moves(group, bag.npartitions, shares, width)
    for place in range(bag.npartitions):
        # Of a partition that can be read once several results share a list. If there is one alone, Dask leaves the list out.
        graph[texts, place] = (list, (_unread, (bag.name, place)))
        graph[group, place] = (_grouped, (texts, place), shares, width, joins)
    for share, keys in enumerate(pickles):
        graph[name, share] = (made[0], (_gathered, keys), *made[1:])
    return Bag(HighLevelGraph.from_collections(name, graph, dependencies=[bag]), name, shares)


def _moves(group: str, partitions: int, shares: int, width: int) -> Tuple[_Graph, List[List[_Key]]]:
    """Gives the tasks between a group task for each partition and the shares, and for each share the keys of what it gets.

    A group task gives sets of width shares. If width is 1, each share gets its set of each partition. Else a task on the way
    gets one set of width partitions, and gives each share of the set its pickles of these.
    """
    part, way, last = f"part-of-{group}", f"way-of-{group}", f"last-of-{group}"
    sets = range(math.ceil(shares / width))
    graph: _Graph = {(part, place, number): (getitem, (group, place), number) for place in range(partitions) for number in sets}
    if width == 1:
        return graph, [[(part, place, share) for place in range(partitions)] for share in range(shares)]
    batches = [range(partitions)[first:first + width] for first in range(0, partitions, width)]
    for place, batch in enumerate(batches):
        graph.update({(way, place, number): (_transposed, [(part, it, number) for it in batch]) for number in sets})
        graph.update({(last, place, share): (getitem, (way, place, share // width), share % width) for share in range(shares)})
    return graph, [[(last, place, share) for place in range(len(batches))] for share in range(shares)]


def _transposed(sets: List[List[bytes]]) -> List[Tuple[bytes, ...]]:
    return list(zip(*sets))


def _unread(partition: Iterable[Any]) -> Iterable[Any]:
    """Gives a partition, unless it is a generator that another result of Dask has read, or a part of it."""
    if inspect.isgenerator(partition) and inspect.getgeneratorstate(partition) != inspect.GEN_CREATED:
        raise ValueError("a partition is a generator that was read before: if several results are made of it, it has to be a list")
    return partition


def _share_of(key: Any, shares: int) -> int:
    """Gives the share of a key, which is the same in each process, and for keys that are equal."""
    like = key if isinstance(key, (str, numbers.Number, *_APART)) else _like(key)
    if isinstance(like, str):
        return zlib.crc32(str.encode(like, "utf-8", "surrogatepass")) % shares
    if isinstance(like, numbers.Number) and like == like:  # the hash of NaN differs from process to process
        return zlib.crc32(b"%d" % hash(like)) % shares
    return 0


def _like(key: Any) -> Any:
    """Gives the str or the number that a key of another kind equals, as a UserString or numpy.bool_ does, or nothing."""
    for kind in (str, int, float):
        with contextlib.suppress(Exception):  # whatever a class raises that is no such thing
            like = kind(key)
            if like == key:
                return like
    return None


def _shares_of(keys: Iterable[Any], shares: int) -> List[int]:
    """Gives the share of each key. It costs little if all are str."""
    with contextlib.suppress(TypeError, UnicodeEncodeError):
        return [number % shares for number in map(zlib.crc32, map(str.encode, keys))]
    return [_share_of(key, shares) for key in keys]


def _grouped(partition: Iterable[Tuple[Any, _Given]], shares: int, width: int, joins: bool) -> List[List[bytes]]:
    """Groups a partition by key, and gives one pickle for each share, or no bytes for a share without a key, in sets of width."""
    first, more = _read(partition)
    joined = _join_early(first, more) if joins else {}
    for key, texts in more.items():
        first[key] = _OF_TEXTS.join([first[key], *texts])
    pickles, count = _pickles(first, joined, shares)
    if count != len(first) + sum(map(len, more.values())):
        _refuse_separators(first, more)
    return [pickles[begin:begin + width] for begin in range(0, shares, width)]


def _read(partition: Iterable[Tuple[Any, _Given]]) -> Tuple[Dict[Any, str], Dict[Any, List[str]]]:
    """Gives the first text of each key, and the others of each key that has more."""
    first: Dict[Any, str] = {}
    more: Dict[Any, List[str]] = defaultdict(list)
    for key, text in partition:
        if type(text) is not str:
            text = _str_of(text)
        if key in first:
            more[key].append(text)
        else:
            first[key] = text
    return first, more


def _str_of(text: _Given) -> str:
    """Gives a text as a str. Bytes that are not UTF-8 become halves of surrogate pairs, which are not UTF-8 either when they move."""
    return text if isinstance(text, str) else bytes.decode(text, "utf-8", "surrogateescape")


def _join_early(first: Dict[Any, str], more: Dict[Any, List[str]]) -> Dict[Any, str]:
    """Joins keys with large texts, and all if the joins before are much shorter than their texts. Gives the joins, and takes these keys
    away. Of a key with a conflict two texts are left.
    """
    joined: Dict[Any, str] = {}
    read = made = 0
    for key, texts in list(more.items()):
        given = [first[key], *texts]
        length = _length_of(given)
        if length >= _LARGE or read < _SAMPLE or 2 * made <= read:
            kept, *others = _with_key(_join_or_pair, key, given)
            read += length
            made += _length_of([kept, *others])
            if others:
                first[key], more[key] = kept, others
            else:
                joined[key] = kept
                del first[key], more[key]
    return joined


def _length_of(texts: List[str]) -> int:
    """Gives how many bytes texts have."""
    return len("".join(texts).encode("utf-8", "surrogatepass"))


def _pickles(pieces: Dict[Any, str], joined: Dict[Any, str], shares: int) -> Tuple[List[bytes], int]:
    """Gives the pickle of each share, and how many texts their separators part."""
    parts: List[_Part] = [([], [], {}) for _ in range(shares)]
    for share, key, piece in zip(_shares_of(pieces, shares), pieces, pieces.values()):
        keys, texts, _ = parts[share]
        keys.append(key)
        texts.append(piece)
    for share, key in zip(_shares_of(joined, shares), joined):
        parts[share][2][key] = joined[key]
    pickles, count, are_str = [], 0, set(map(type, pieces)) <= {str}
    for keys, texts, of_share in parts:
        text = _OF_KEYS.join(texts)
        count += _separators(text) + 1 if texts else 0
        part = _packed(keys) if are_str else keys, text.encode("utf-8", "surrogatepass"), of_share
        pickles.append(cloudpickle.dumps(part) if keys or of_share else b"")
    return pickles, count


def _packed(keys: List[str]) -> Union[str, List[str]]:
    """Gives keys in one str, if there are some, and none has the separator in it."""
    packed = _OF_KEYS.join(keys)
    return packed if keys and packed.count(_OF_KEYS) == len(keys) - 1 else keys


def _separators(text: str) -> int:
    return sum(text.count(it) for it in (_OF_TEXTS, _OF_KEYS) if it in text)


def _refuse_separators(pieces: Dict[Any, str], more: Dict[Any, List[str]]) -> None:
    """Raises the PatchError of a text that has a separator in it."""
    for key, piece in pieces.items():
        if _separators(piece) != len(more.get(key, ())):
            _with_key(join, key, [piece])


def _gathered(sets: Iterable[Iterable[bytes]]) -> _Pieces:
    """Gives the texts of one share by key."""
    pieces: _Pieces = {}
    for pickled in chain.from_iterable(sets):
        if pickled:
            packed, texts, joined = pickle.loads(pickled)
            keys = packed.split(_OF_KEYS) if isinstance(packed, str) else packed
            for key, piece in chain(zip(keys, texts.split(_OF_KEYS.encode())), joined.items()):
                had = pieces.setdefault(key, piece)
                if had is not piece:  # a text that is the same object as another is a repeat
                    pieces[key] = _together(had, piece)
    return pieces


def _together(had: _Piece, more: _Piece) -> bytearray:
    """Puts another piece at the end of one, of which it makes a bytearray, unlike a list no object that the garbage collector visits."""
    piece = had if isinstance(had, bytearray) else bytearray(_bytes_of(had))
    piece += _OF_TEXTS.encode()
    piece += _bytes_of(more)
    return piece


def _bytes_of(piece: _Piece) -> Union[bytes, bytearray]:
    return piece.encode("utf-8") if isinstance(piece, str) else piece


def _texts_of(piece: _Piece) -> List[bytes]:
    return bytes(_bytes_of(piece)).split(_OF_TEXTS.encode())


def _joins(pieces: _Pieces) -> List[Tuple[Any, Optional[str]]]:
    return [(key, piece if isinstance(piece, str) else _with_key(_join_or_none, key, _texts_of(piece))) for key, piece in pieces.items()]


def _conflicting(pieces: _Pieces, limit: Optional[int]) -> List[Tuple[Any, List[_Pair]]]:
    found = ((key, _with_key(lambda texts: _pairs(texts, limit), key, _texts_of(piece))) for key, piece in pieces.items())
    return [(key, pairs) for key, pairs in found if pairs]


def _with_key(call: Callable[[List[_Text]], _Made], key: Any, texts: List[_Text]) -> _Made:
    """Calls with the texts of a key, which an error has then, and the number 0: that in one of many orders says nothing."""
    try:
        return call(texts)
    except PatchError as error:
        of_key: Union[PatchError, TooLarge] = of_patch(error, f"patch of {key!r}")
    except TooLarge as error:
        of_key = with_line(TooLarge(), f"conflicts of {key!r}: {error}")
    of_key.key = key
    raise of_key


def _join_or_none(texts: List[bytes]) -> Optional[str]:
    try:
        return join(texts)
    except Conflict:
        return None


def _join_or_pair(texts: List[str]) -> List[str]:
    """Gives the join, or two texts that conflict: with any others they have no join either, and all texts here are documents."""
    try:
        return [join(texts)]
    except Conflict as conflict:
        return [texts[conflict.first], texts[conflict.second]]


def _pairs(texts: List[bytes], limit: Optional[int]) -> List[_Pair]:
    """Gives the pairs in order. If there is a limit, the texts are given in none, so that of the first ones so many conflict as of all."""
    given = sorted(set(texts))
    if limit is not None:
        random.Random(len(given)).shuffle(given)
    found = conflicts(given, limit=limit)
    shown = [text.decode("utf-8") for text in given]
    pairs: List[_Pair] = []
    for first, second, places in found:
        one, other = shown[first], shown[second]
        pairs.append((one, other, places) if one < other else (other, one, places))
    return sorted(pairs)

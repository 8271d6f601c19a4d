"""The Tenderchock library for Python: BED lines, PSL lines and chains are read, checked, written, lifted and turned, and
texts of numbers are read, by the code of libdesk.a. Nothing but the standard library is needed.

    >>> import tenderchock
    >>> tenderchock.parse("bed", "chr22 1000 5000 cloneA").name
    'cloneA'
    >>> tenderchock.check("bed", "chr22 1,000 5000")
    Traceback (most recent call last):
        ..
    tenderchock.Refusal: refused by 4 at byte 6: a number is misspelt, or a list item is empty

The entries are loaded from the shared library that the environment variable TENDERCHOCK_SO names, else from
libtenderchock.so beside this file. One command makes it of the archive (python/README.md):

    cc -shared -o libtenderchock.so -Wl,--whole-archive libdesk.a -Wl,--no-whole-archive

A text is handed in as bytes or as str; a kind is "bed", "psl" or "chain". Names and standard texts are answered as str:
the library accepts ASCII only. Each call lends the library memory of its own, so threads may call at the same time.
"""

import ctypes
import operator
import os
import struct
from typing import Iterable, List, NamedTuple, Optional, Tuple, Union

__all__ = [
    "Bed", "Chain", "LiftedPosition", "LiftedRegion", "Psl", "Refusal", "Row", "Tally",
    "check", "convert", "format", "lift_batch", "lift_position", "lift_region", "meaning", "numbers", "parse", "turn",
]

Text = Union[bytes, bytearray, memoryview, str]

# Most bytes in a text; room enough for any standard text, and for the numbers of any record.
TEXT_LIMIT = 65_536
# Bytes of a row of answers to a batch.
_ROW_SIZE = 40

_KINDS = {"bed": 1, "psl": 2, "chain": 3}

_MEANINGS = {
    1: "the text is over 65,536 bytes",
    2: "wrong number of words or lines",
    3: "a byte that is not allowed",
    4: "a number is misspelt, or a list item is empty",
    5: "a number is outside its range",
    6: "a bad fixed word, strand or name length",
    7: "start, end and size disagree",
    8: "the list's length differs from the block count",
    9: "the blocks break their rules",
    10: "the counts disagree",
    11: "over 512 blocks, or too little room",
    12: "no pair for this position or region",
    13: "the position or region is not inside the target",
}


def meaning(number: int) -> str:
    """What a number of the refusal ledger means."""
    return _MEANINGS.get(number, "a number that is not in the ledger")


class Refusal(Exception):
    """The library refused: `number` in the refusal ledger, `place`, a byte offset in the text, and `meaning`."""

    def __init__(self, number: int, place: int):
        super().__init__(number, place)
        self.number = number
        self.place = place

    @property
    def meaning(self) -> str:
        return meaning(self.number)

    def __str__(self) -> str:
        return f"refused by {self.number} at byte {self.place}: {self.meaning}"


class Row(NamedTuple):
    """A block: its start on the target, on the query (with `-`, on the reversed query), and its size."""

    target_start: int
    query_start: int
    size: int


class Bed(NamedTuple):
    """A BED line. Columns left out hold their defaults; `item_rgb` is red, green and blue."""

    word_count: int
    chrom: str
    chrom_start: int
    chrom_end: int
    name: str
    score: int
    strand: str
    thick_start: int
    thick_end: int
    item_rgb: Tuple[int, int, int]
    rows: List[Row]


class Psl(NamedTuple):
    """A PSL line. `strand` is the query's; `q_start` and `q_end` count on the forward strand."""

    matches: int
    mis_matches: int
    rep_matches: int
    n_count: int
    q_num_insert: int
    q_base_insert: int
    t_num_insert: int
    t_base_insert: int
    strand: str
    q_name: str
    q_size: int
    q_start: int
    q_end: int
    t_name: str
    t_size: int
    t_start: int
    t_end: int
    rows: List[Row]


class Chain(NamedTuple):
    """A chain. With `-`, `q_start` and `q_end` count on the reversed query."""

    score: int
    t_name: str
    t_size: int
    t_start: int
    t_end: int
    q_name: str
    q_size: int
    q_strand: str
    q_start: int
    q_end: int
    id: int
    rows: List[Row]


class LiftedPosition(NamedTuple):
    """A position's partner, and the drift, partner minus position."""

    partner: int
    drift: int


class LiftedRegion(NamedTuple):
    """A region's bases in a pair and in none, and the smallest query region that holds all partners."""

    kept: int
    dropped: int
    start: int
    end: int


def check(kind: str, text: Text) -> int:
    """Checks a text; answers its number of blocks."""
    return _taken(_library.tenderchock_check(_kind(kind), *_lent(text)))


def parse(kind: str, text: Text) -> Union[Bed, Psl, Chain]:
    """Reads a text; answers its record, a Bed, a Psl or a Chain."""
    number, read = _kind(kind), _text(text)
    out = ctypes.create_string_buffer(TEXT_LIMIT)
    count = _taken(_library.tenderchock_parse(number, read, len(read), out, len(out)))
    fields = _Fields(read, struct.unpack_from(f"<{count}Q", out))
    return (fields.bed, fields.psl, fields.chain)[number - 1]()


def format(kind: str, text: Text) -> str:
    """The standard text of a text."""
    return _written(_library.tenderchock_format, _kind(kind), *_lent(text))


def numbers(text: Text) -> List[int]:
    """The numbers of a text of one line, each up to 999,999,999,999,999,999."""
    read = _text(text)
    # A blank stands between any two numbers. A text over the limit is refused, and needs no room.
    most = len(read) // 2 + 1 if len(read) <= TEXT_LIMIT else 0
    out = ctypes.create_string_buffer(8 * most)
    count = _taken(_library.tenderchock_numbers(read, len(read), out, len(out)))
    return list(struct.unpack_from(f"<{count}Q", out))


def convert(start: int, end: int, size: int) -> Tuple[int, int]:
    """Start and end on the other strand of a sequence: size - end and size - start."""
    return _numbers(2, _library.tenderchock_convert, _number(start), _number(end), _number(size))


def lift_position(chain: Text, position: int) -> LiftedPosition:
    """Lifts a target position through a chain, handed in as its text."""
    partner, drift = _numbers(2, _library.tenderchock_lift_position, *_lent(chain), _number(position))
    return LiftedPosition(partner, drift - 2**64 if drift >= 2**63 else drift)


def lift_region(chain: Text, start: int, end: int) -> LiftedRegion:
    """Lifts a target region through a chain, handed in as its text."""
    return LiftedRegion(*_numbers(4, _library.tenderchock_lift_region, *_lent(chain), _number(start), _number(end)))


def turn(chain: Text) -> str:
    """The standard text of a chain turned: target and query exchange sides."""
    return _written(_library.tenderchock_turn, *_lent(chain))


class Tally:
    """Bases asked, kept and dropped over a batch of regions."""

    def __init__(self, asked: int = 0, kept: int = 0, dropped: int = 0):
        self.asked = asked
        self.kept = kept
        self.dropped = dropped

    def add(self, chain: Text, start: int, end: int) -> int:
        """Sends one region through a chain; answers the bases kept. A region refused by 12 counts as asked and dropped;
        any other refusal leaves the tally."""
        start, end, lent = _number(start), _number(end), self._lent()
        answer = _library.tenderchock_tally(*_lent(chain), start, end, lent, len(lent))
        self._take(lent)
        return _taken(answer)

    def _lent(self) -> ctypes.Array:
        """As an entry reads it."""
        fields = [_number(field) for field in (self.asked, self.kept, self.dropped)]
        return ctypes.create_string_buffer(struct.pack("<3Q", *fields), 24)

    def _take(self, lent: ctypes.Array) -> None:
        """As an entry left it."""
        self.asked, self.kept, self.dropped = struct.unpack("<3Q", lent)

    def __repr__(self) -> str:
        return f"Tally(asked={self.asked}, kept={self.kept}, dropped={self.dropped})"


def lift_batch(
    chain: Text, regions: Iterable[Tuple[int, int]], tally: Optional[Tally] = None
) -> List[Union[LiftedRegion, Refusal]]:
    """Sends regions, each a start and an end, through a chain, whose text is read once. Each has its own answer, a
    LiftedRegion or a Refusal, which is answered and not raised; the tally grows as by Tally.add, one after the other."""
    asked = [_number(number) for start, end in regions for number in (start, end)]
    tally = Tally() if tally is None else tally
    lent, out = tally._lent(), ctypes.create_string_buffer(_ROW_SIZE * (len(asked) // 2))
    packed = struct.pack(f"<{len(asked)}Q", *asked)
    answer = _library.tenderchock_lift_batch(*_lent(chain), packed, len(packed), lent, len(lent), out, len(out))
    tally._take(lent)
    count = _taken(answer)
    return [_row(*struct.unpack_from("<5Q", out, _ROW_SIZE * k)) for k in range(count)]


def _row(number: int, *lifted: int) -> Union[LiftedRegion, Refusal]:
    """What a row of answers says."""
    return LiftedRegion(*lifted) if number == 0 else Refusal(number, 0)


class _Fields:
    """The fields of a record, taken from the front of its numbers."""

    def __init__(self, text: bytes, numbers: Tuple[int, ...]):
        self.text = text
        self.numbers = iter(numbers)

    def number(self) -> int:
        return next(self.numbers)

    def some(self, count: int) -> List[int]:
        return [self.number() for _ in range(count)]

    def name(self) -> str:
        """Where a name stands, and its length."""
        start, length = self.some(2)
        return self.text[start : start + length].decode("ascii")

    def strand(self) -> str:
        return chr(self.number())

    def colour(self) -> Tuple[int, int, int]:
        """red * 65,536 + green * 256 + blue."""
        red, green, blue = self.number().to_bytes(3, "big")
        return red, green, blue

    def rows(self) -> List[Row]:
        """The block count, and the rows after it."""
        return [Row(*self.some(3)) for _ in range(self.number())]

    # The arguments of a call are taken from the left, as the numbers stand.

    def bed(self) -> Bed:
        return Bed(
            self.number(), self.name(), *self.some(2), self.name(), self.number(), self.strand(), *self.some(2),
            self.colour(), self.rows(),
        )

    def psl(self) -> Psl:
        return Psl(*self.some(8), self.strand(), self.name(), *self.some(3), self.name(), *self.some(3), self.rows())

    def chain(self) -> Chain:
        return Chain(
            self.number(), self.name(), *self.some(3), self.name(), self.number(), self.strand(), *self.some(3),
            self.rows(),
        )


def _kind(kind: str) -> int:
    try:
        return _KINDS[kind]
    except (KeyError, TypeError):
        raise ValueError(f"the kind is 'bed', 'psl' or 'chain', not {kind!r}") from None


def _text(text: Text) -> bytes:
    # A str that is no ASCII is refused by 3 at its first such letter, however it is encoded.
    return text.encode("utf-8", "surrogatepass") if isinstance(text, str) else bytes(memoryview(text))


def _lent(text: Text) -> Tuple[bytes, int]:
    read = _text(text)
    return read, len(read)


def _number(number: int) -> int:
    """A number that an entry can take; ctypes would cut others short without a word."""
    number = operator.index(number)
    if not 0 <= number < 2**64:
        raise ValueError(f"{number} is not a number of 64 bits without sign")
    return number


def _taken(answer: int) -> int:
    """Takes an answer, 16 * value + reason, apart."""
    value, number = divmod(answer, 16)
    if number != 0:
        raise Refusal(number, value)
    return value


def _written(entry, *words) -> str:
    """The text that an entry writes."""
    out = ctypes.create_string_buffer(TEXT_LIMIT)
    length = _taken(entry(*words, out, len(out)))
    return ctypes.string_at(out, length).decode("ascii")


def _numbers(count: int, entry, *words) -> Tuple[int, ...]:
    """The few numbers that an entry writes."""
    out = ctypes.create_string_buffer(8 * count)
    _taken(entry(*words, out, len(out)))
    return struct.unpack(f"<{count}Q", out)


def _load() -> ctypes.CDLL:
    beside = os.path.join(os.path.dirname(os.path.abspath(__file__)), "libtenderchock.so")
    path = os.path.abspath(os.environ.get("TENDERCHOCK_SO") or beside)
    number, text, lent = ctypes.c_uint64, [ctypes.c_char_p, ctypes.c_size_t], [ctypes.c_void_p, ctypes.c_size_t]
    entries = {
        "tenderchock_check": [number, *text],
        "tenderchock_parse": [number, *text, *lent],
        "tenderchock_format": [number, *text, *lent],
        "tenderchock_numbers": [*text, *lent],
        "tenderchock_convert": [number, number, number, *lent],
        "tenderchock_lift_position": [*text, number, *lent],
        "tenderchock_lift_region": [*text, number, number, *lent],
        "tenderchock_turn": [*text, *lent],
        "tenderchock_tally": [*text, number, number, *lent],
        "tenderchock_lift_batch": [*text, *text, *lent, *lent],
    }
    try:
        library = ctypes.CDLL(path)
        for name, words in entries.items():
            entry = getattr(library, name)
            entry.argtypes = words
            entry.restype = ctypes.c_uint64
    except (OSError, AttributeError) as error:
        raise ImportError(
            f"cannot load the Tenderchock library: {error}. TENDERCHOCK_SO names it, else it is {beside}; "
            "python/README.md has the command that makes it"
        ) from error
    return library


_library = _load()

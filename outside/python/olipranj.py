"""Olipranj's proved library from Python: this one file over the shared library, and nothing else to install.

    from olipranj import Book, Line, Pending
    book = Book.fresh(1)
    taken = book.enter(Line(7, 1), 180)
    if isinstance(taken, Pending):
        print("not entered yet:", taken.refusal)
    kept = book.page(7)
    shown = book.serve(7, kept, b"the notice")

A `Store` holds results by line. A call gives its result by type, or raises a `Refusal` that says name, number and
meaning; then the store is as it was. A fresh or a loaded store is always another one: `store = Store.load(image)`
changes nothing if the image is refused.

A store may refuse an entry (FULL, CLOCK). Then it goes on with the old figure, and the kept page is still true to the
store: until the entry is accepted, the portal must show the notice. A `Book` is a store that has this built in, and
carries when the root is full.

What the library's calls do is proved. What this file adds to them, books among it, is not proved, but tested
(outside/python/tests.py). Numbers are of 32 bits; another one is a `NoNumber`, and no call is made.

At the same time: calls that leave a store or a book alone may overlap, a call that alters it excludes all others. A portal
with several threads keeps these apart, with a lock of its own.

The library is the file that the environment variable OLIPRANJ_LIBRARY names; else libolipranj.so beside this file, in
../target/lib, or in the folder `lib` of a folder above; else the system's. Python 3.8 or later.
"""

import ctypes
import operator
import os
import pathlib
from dataclasses import dataclass
from typing import Any, Dict, List, NamedTuple, Optional, Tuple, Union

LAYOUT = 1
"""The layout of the types here; the library must have the same one."""

NODES = 8
EDGES = 4
NODE_PLACES = 64
PLACES = NODES * NODE_PLACES
SLOTS = 8
ANALYTES = 32
LAST_SAMPLE = 134217727
LAST_CLOCK = 4294967295
LONGEST_PAGE = 357
LONGEST_IMAGE = 1931
CAPACITIES = {1: (8, 16, 32, 64), 2: (8, 32, 32), 3: (8, 16, 16, 64)}
"""The capacities of each plan's nodes. A store holds at most 120, 72 or 104 copies in all."""

_LAST_NUMBER = 4294967295
_ENTER, _WITHDRAW, _CARRY, _START, _STEP, _CANCEL = range(1, 7)

ANSWERS = (
    ("DONE", "the call was done"),
    ("GOING", "the search has not ended"),
    ("BADSTORE", "the store breaks a store rule"),
    ("PLAN", "there is no plan of this number"),
    ("CLOCK", "the clock has its last value, the store takes no more entries"),
    ("FULL", "the root is full and has no copy of the line"),
    ("NODE", "the plan has no such node"),
    ("EDGE", "the node has no such edge"),
    ("SLOTS", "a search runs in every slot"),
    ("SLOT", "there is no such slot"),
    ("IDLE", "no search runs in the slot"),
    ("SMALL", "the buffer is too short"),
    ("SAMPLE", "the sample is too large"),
    ("CUT", "the bytes end before a number or inside it"),
    ("NUMBER", "a number is not in its shortest form, or is above 32 bits"),
    ("FORMAT", "the image has another format"),
    ("RULE", "the image breaks a store rule"),
    ("TRAIL", "bytes are left after the image"),
    ("OP", "no step has this number"),
    ("MANY", "bytes are left after the last step"),
)
"""Each answer number's name and meaning, at its own place."""

_DONE, _GOING, _FULL = 0, 1, 5
_WITH_OFFSET = ("CUT", "NUMBER", "FORMAT", "RULE", "TRAIL", "MANY")


class Answer(NamedTuple):
    """An answer, as the library gives it: its number, and four numbers, zero unless the call names them."""

    number: int
    a: int = 0
    b: int = 0
    c: int = 0
    d: int = 0


class Refusal(Exception):
    """A refused call. The store is as it was. An answer that the call cannot give is a refusal too."""

    def __init__(self, answer: Answer):
        super().__init__(answer)
        self.answer = answer

    @property
    def number(self) -> int:
        """The answer's number."""
        return self.answer.number

    @property
    def name(self) -> Optional[str]:
        """The answer's name; None for a number that the header does not have."""
        return ANSWERS[self.number][0] if self.number < len(ANSWERS) else None

    @property
    def meaning(self) -> str:
        """What the answer means."""
        if self.number < len(ANSWERS):
            return ANSWERS[self.number][1]
        return "an answer that the header does not have"

    def __str__(self) -> str:
        if self.name is None:
            return f"answer {self.number}, which the header does not have"
        return f"{self.name} ({self.number}): {self.meaning}{self._more()}"

    def _more(self) -> str:
        if self.number in (_DONE, _GOING):
            return ", but with numbers that the call does not give"
        if self.name == "SMALL":
            return f", {self.answer.a} bytes are needed"
        if self.name in _WITH_OFFSET or (self.name == "PLAN" and self.answer.a > 0):
            return f", at offset {self.answer.a}"
        return ""

    def __eq__(self, other: object) -> bool:
        return isinstance(other, Refusal) and self.answer == other.answer

    def __hash__(self) -> int:
        return hash(self.answer)


class NoNumber(ValueError):
    """A number that is not of 32 bits. No call was made."""


class NoLine(ValueError):
    """A sample or an analyte that no line has."""


def _number(number: int) -> int:
    """The number, if it is of 32 bits: ctypes would cut off what is above."""
    number = operator.index(number)
    if not 0 <= number <= _LAST_NUMBER:
        raise NoNumber(f"{number} is no number of 32 bits")
    return number


def _bytes(given) -> bytes:
    """The bytes of what was given; a number or None is none."""
    return given if type(given) is bytes else memoryview(given).tobytes()


# What calls take and give, by type.


@dataclass(frozen=True, order=True)
class Line:
    """A line: one analyte of one sample. Refused with NoLine if one of them is too large."""

    sample: int
    analyte: int

    def __post_init__(self):
        for name, most in (("sample", LAST_SAMPLE), ("analyte", ANALYTES - 1)):
            number = operator.index(getattr(self, name))
            if not 0 <= number <= most:
                raise NoLine(f"{name} {number} is not 0 to {most}")
            object.__setattr__(self, name, number)

    @classmethod
    def of_key(cls, key: int) -> "Line":
        """The line of a key; every number of 32 bits is one."""
        return cls(*divmod(_number(key), ANALYTES))

    @property
    def key(self) -> int:
        """The line's key."""
        return self.sample * ANALYTES + self.analyte

    def __str__(self) -> str:
        return f"{self.sample}/{self.analyte}"


@dataclass(frozen=True)
class Entry:
    """What is entered for a line: a result's value, or None: the line is withdrawn. 0 is a value like any other."""

    value: Optional[int]

    def __post_init__(self):
        if self.value is not None:
            object.__setattr__(self, "value", _number(self.value))


WITHDRAWN = Entry(None)


class Stamp(int):
    """A stamp. Of two copies of one store the one with the greater stamp is newer."""

    def __repr__(self) -> str:
        return f"Stamp({int(self)})"

    def __str__(self) -> str:
        return str(int(self))


class Look:
    """What a look, or a search that ended, found for a line: Never, Withdrawn or Result. Each has value and stamp, None
    where the line has none; 0 is a value like any other."""


@dataclass(frozen=True)
class Never(Look):
    """The line was never entered."""

    value = None
    stamp = None


@dataclass(frozen=True)
class Withdrawn(Look):
    """The line is withdrawn."""

    stamp: Stamp
    value = None


@dataclass(frozen=True)
class Result(Look):
    """The line's current result."""

    value: int
    stamp: Stamp


class Carried(NamedTuple):
    """What a carry did: the copies carried, those discarded for them, those of the edge's lines left in the node."""

    carried: int
    discarded: int
    left: int


class Going(NamedTuple):
    """A search goes on at this node, after so many visits."""

    node: int
    visits: int


class Ended(NamedTuple):
    """A search ended, and its slot is idle."""

    look: Look
    visits: int


class Held(NamedTuple):
    """A copy that a node holds."""

    line: Line
    entry: Entry
    stamp: Stamp


class Node(NamedTuple):
    """A node of a store: its number, the most copies that it may hold, and its copies by rising line."""

    number: int
    capacity: int
    copies: Tuple[Held, ...]


# Numbers in bytes, and pages.


class Fault(ValueError):
    """Why bytes are not what they should be, and the offset of the number or byte at fault."""

    meanings = {
        "CUT": "the bytes end before a number or inside it",
        "NUMBER": "a number is not in its shortest form, or is above 32 bits",
        "SAMPLE": "the sample is too large",
        "COUNT": "a page has no more lines than a sample has analytes",
        "ANALYTE": "the analyte is too large, or not above the one before",
        "STAMP": "no copy has this stamp",
        "TRAIL": "bytes are left after the page",
        "STEP": "what is pending is no entry",
        "REFUSAL": "no refusal has this number",
    }

    def __init__(self, name: str, offset: int):
        super().__init__(name, offset)
        self.name = name
        self.offset = offset

    @property
    def meaning(self) -> str:
        """What is wrong."""
        return self.meanings[self.name]

    def __str__(self) -> str:
        return f"offset {self.offset}: {self.meaning}"


def _number_bytes(number: int) -> bytes:
    """A number's bytes: groups of seven bits, the lowest first."""
    groups = bytearray()
    while number > 0x7F:
        groups.append(number & 0x7F | 0x80)
        number >>= 7
    groups.append(number)
    return bytes(groups)


class _Reader:
    """Reads numbers from the left."""

    def __init__(self, data: bytes):
        self.data = data
        self.at = 0

    def number(self, least: int = 0, most: int = _LAST_NUMBER, fault: str = "NUMBER") -> int:
        """The next number, if it is within the bounds."""
        number = 0
        for place, byte in enumerate(self.data[self.at : self.at + 5]):
            if (place == 4 and byte > 0x0F) or (place > 0 and byte == 0):
                raise Fault("NUMBER", self.at)
            number |= (byte & 0x7F) << (7 * place)
            if byte < 0x80:
                if not least <= number <= most:
                    raise Fault(fault, self.at)
                self.at += place + 1
                return number
        raise Fault("CUT", self.at)


class PageLine(NamedTuple):
    """A line on a page: its current result."""

    line: Line
    value: int
    stamp: Stamp


class Page(bytes):
    """A sample's page: bytes to keep, and its lines to read. `Page(kept)` reads bytes that were kept."""

    def lines(self) -> List[PageLine]:
        """The page's lines, by rising analyte; a Fault if the bytes are no page, wherever in them the fault is."""
        reader = _Reader(self)
        sample = reader.number(0, LAST_SAMPLE, "SAMPLE")
        lines = []
        lowest = 0
        for _ in range(reader.number(0, ANALYTES, "COUNT")):
            analyte = reader.number(lowest, ANALYTES - 1, "ANALYTE")
            lowest = analyte + 1
            value = reader.number()
            stamp = reader.number(1, LAST_CLOCK - 1, "STAMP")
            lines.append(PageLine(Line(sample, analyte), value, Stamp(stamp)))
        if reader.at < len(self):
            raise Fault("TRAIL", reader.at)
        return lines

    def sample(self) -> int:
        """The page's sample; a Fault if the bytes do not begin with one."""
        return _Reader(self).number(0, LAST_SAMPLE, "SAMPLE")


# The library, as the header olipranj.h declares it.


class _Slot(ctypes.Structure):
    _fields_ = [(name, ctypes.c_uint32) for name in ("running", "key", "node", "visits")]


class Raw(ctypes.Structure):
    """A store's numbers. Any numbers at all: `Store(raw)` is BADSTORE if they break a store rule."""

    _fields_ = [
        ("plan", ctypes.c_uint32),
        ("clock", ctypes.c_uint32),
        ("counts", ctypes.c_uint32 * NODES),
        ("keys", ctypes.c_uint32 * PLACES),
        ("kinds", ctypes.c_uint32 * PLACES),
        ("values", ctypes.c_uint32 * PLACES),
        ("stamps", ctypes.c_uint32 * PLACES),
        ("slots", _Slot * SLOTS),
    ]


class _Answer(ctypes.Structure):
    _fields_ = [("number", ctypes.c_uint32)] + [(name, ctypes.c_uint64) for name in "abcd"]


_STORE = ctypes.POINTER(Raw)
_BUFFER = ctypes.POINTER(ctypes.c_ubyte)
_WORD, _LENGTH, _GIVEN = ctypes.c_uint32, ctypes.c_size_t, ctypes.c_char_p
_CALLS = {
    "layout": (_WORD, []),
    "fresh": (_Answer, [_STORE, _WORD]),
    "step": (_Answer, [_STORE, _WORD, _WORD, _WORD]),
    "good": (_Answer, [_STORE]),
    "look": (_Answer, [_STORE, _WORD]),
    "save": (_Answer, [_STORE, _BUFFER, _LENGTH]),
    "load": (_Answer, [_STORE, _GIVEN, _LENGTH]),
    "page": (_Answer, [_STORE, _WORD, _BUFFER, _LENGTH]),
    "serve": (_LENGTH, [_STORE, _WORD, _GIVEN, _LENGTH]),
}


def _place() -> str:
    """Where the library is."""
    named = os.environ.get("OLIPRANJ_LIBRARY")
    if named:
        return named
    name = "libolipranj.so"
    here = pathlib.Path(__file__).resolve().parent
    places = [here / name, here.parent / "target" / "lib" / name]
    places += [above / "lib" / name for above in here.parents]
    return next((str(place) for place in places if place.exists()), name)


def _opened(place: str) -> Dict[str, Any]:
    """The library's functions, by name; an ImportError if it is not there or has another layout."""
    try:
        # A PyDLL does not let another thread run during a call.
        library = ctypes.PyDLL(place)
        functions = {name: getattr(library, "olipranj_" + name) for name in _CALLS}
    except (OSError, AttributeError) as error:
        raise ImportError(f"no library of Olipranj: {error}; OLIPRANJ_LIBRARY names one") from error
    for name, (gives, takes) in _CALLS.items():
        functions[name].restype = gives
        functions[name].argtypes = takes
    layout = functions["layout"]()
    if layout != LAYOUT:
        raise ImportError(f"{place} has layout {layout}, and this file is for layout {LAYOUT}")
    return functions


_library = _opened(_place())


def _call(name: str, raw: Raw, *given) -> Answer:
    """A call of the library with an answer."""
    answer = _library[name](ctypes.byref(raw), *given)
    return Answer(answer.number, answer.a, answer.b, answer.c, answer.d)


def _done(answer: Answer) -> Answer:
    """The answer, if it is DONE."""
    if answer.number != _DONE:
        raise Refusal(answer)
    return answer


def _found(answer: Answer) -> Look:
    """What a search that ended found."""
    _done(answer)
    if answer.a == 0:
        return Never()
    if answer.a == 1:
        return Withdrawn(Stamp(answer.c))
    if answer.a == 2:
        return Result(answer.b, Stamp(answer.c))
    raise Refusal(answer)


def _written(most: int, name: str, raw: Raw, *given) -> bytes:
    """What a call writes into a buffer of the most bytes that it may need."""
    buffer = (ctypes.c_ubyte * most)()
    length = _done(_call(name, raw, *given, buffer, most)).a
    return ctypes.string_at(buffer, length)


# Stores.


class Store:
    """A good store behind the library's calls. A refused call leaves it as it was.

    `Store(raw)` is the store of these numbers, copied; else BADSTORE.
    """

    __slots__ = ("_raw",)

    def __init__(self, raw: Raw):
        self._raw = Raw.from_buffer_copy(raw)
        _done(_call("good", self._raw))

    @classmethod
    def _laid_down(cls, name: str, *given) -> "Store":
        """The store that fresh or load lays down in a place of its own."""
        store = cls.__new__(cls)
        store._raw = Raw()
        _done(_call(name, store._raw, *given))
        return store

    @classmethod
    def fresh(cls, plan: int) -> "Store":
        """A fresh store of a plan, by its number from 1; else PLAN."""
        return cls._laid_down("fresh", _number(plan))

    @classmethod
    def load(cls, image: bytes) -> "Store":
        """The store that an image holds, with no search running; else the image's first fault."""
        image = _bytes(image)
        return cls._laid_down("load", image, len(image))

    def copy(self) -> "Store":
        """Another store with the same numbers."""
        return Store(self._raw)

    def __copy__(self) -> "Store":
        return self.copy()

    @property
    def raw(self) -> Raw:
        """The store's numbers, copied."""
        return Raw.from_buffer_copy(self._raw)

    def _step(self, number: int, x: int, y: int = 0) -> Answer:
        return _call("step", self._raw, number, _number(x), _number(y))

    def enter(self, line: Line, value: int) -> Stamp:
        """Enters a result: its stamp; or CLOCK, or FULL (then carry and enter again, as a Book does)."""
        return Stamp(_done(self._step(_ENTER, line.key, value)).a)

    def withdraw(self, line: Line) -> Stamp:
        """Withdraws a line: the stamp; or CLOCK, or FULL."""
        return Stamp(_done(self._step(_WITHDRAW, line.key)).a)

    def take(self, line: Line, entry: Entry) -> Stamp:
        """Enters a result or withdraws."""
        return self.withdraw(line) if entry.value is None else self.enter(line, entry.value)

    def carry(self, node: int, edge: int) -> Carried:
        """Carries a node's copies along one of its edges; or NODE, or EDGE."""
        answer = _done(self._step(_CARRY, node, edge))
        return Carried(answer.a, answer.b, answer.c)

    def start(self, line: Line) -> int:
        """Starts a search in the lowest idle slot: the slot; or SLOTS."""
        return _done(self._step(_START, line.key)).a

    def step(self, slot: int) -> Union[Going, Ended]:
        """Lets a slot's search visit one node; or SLOT, or IDLE."""
        answer = self._step(_STEP, slot)
        if answer.number == _GOING:
            return Going(answer.a, answer.b)
        return Ended(_found(answer), answer.d)

    def cancel(self, slot: int) -> None:
        """Ends a slot's search; or SLOT, or IDLE."""
        _done(self._step(_CANCEL, slot))

    def look(self, line: Line) -> Look:
        """A whole search at once."""
        return _found(_call("look", self._raw, line.key))

    def save(self) -> bytes:
        """The store's image. Searches are not saved."""
        return _written(LONGEST_IMAGE, "save", self._raw)

    def page(self, sample: int) -> Page:
        """The sample's page; or SAMPLE."""
        return Page(_written(LONGEST_PAGE, "page", self._raw, _number(sample)))

    def still_true(self, sample: int, kept: bytes) -> Optional[bytes]:
        """The kept bytes' beginning, if it is the sample's page as it is now; None: the notice is due."""
        kept = _bytes(kept)
        length = _library["serve"](ctypes.byref(self._raw), _number(sample), kept, len(kept))
        return kept[:length] if length > 0 else None

    def serve(self, sample: int, kept: bytes, notice: bytes) -> bytes:
        """What still_true gives, else the whole notice."""
        shown = self.still_true(sample, kept)
        return notice if shown is None else shown

    @property
    def plan(self) -> int:
        """The number of the store's plan."""
        return self._raw.plan

    @property
    def clock(self) -> int:
        """The store's clock: the stamp of the next entry."""
        return self._raw.clock

    @property
    def copies(self) -> int:
        """How many copies the store holds."""
        return sum(self._raw.counts)

    def nodes(self) -> List[Node]:
        """The store's nodes, the root first."""
        capacities = enumerate(CAPACITIES[self.plan])
        return [Node(node, capacity, self._held(node)) for node, capacity in capacities]

    def _held(self, node: int) -> Tuple[Held, ...]:
        raw, first = self._raw, node * NODE_PLACES
        places = range(first, first + raw.counts[node])
        values = (raw.values[at] if raw.kinds[at] else None for at in places)
        return tuple(
            Held(Line.of_key(raw.keys[at]), Entry(value), Stamp(raw.stamps[at])) for at, value in zip(places, values)
        )

    def lines(self) -> Dict[Line, Look]:
        """The lines that the store holds a copy of, rising, each with its look."""
        held = {copy.line for node in self.nodes() for copy in node.copies}
        return {line: self.look(line) for line in sorted(held)}

    def __eq__(self, other: object) -> bool:
        return isinstance(other, Store) and bytes(self._raw) == bytes(other._raw)

    __hash__ = None  # type: ignore[assignment]

    def __repr__(self) -> str:
        searches = sum(slot.running for slot in self._raw.slots)
        counts = list(self._raw.counts)
        return f"Store(plan={self.plan}, clock={self.clock}, counts={counts}, searches={searches})"


# Books.


@dataclass(frozen=True)
class Pending:
    """An entry that was refused, and how."""

    line: Line
    entry: Entry
    refusal: Refusal


class NoPage(Exception):
    """No page, since this line of the sample has an entry pending: the notice is due."""

    def __init__(self, line: Line):
        super().__init__(line)
        self.line = line

    def __str__(self) -> str:
        return f"an entry of line {self.line} is pending"


@dataclass(frozen=True)
class Saved:
    """A book as it is kept overnight: its store's image, and what is pending."""

    image: bytes
    pending: Tuple[Pending, ...]

    def to_bytes(self) -> bytes:
        """One run of bytes for both: each entry pending as a schedule has it (1 key value, or 2 key) and the number of
        its refusal, then 0, then the image. They have no checksum: a file around them needs one (see evening.py)."""
        numbers: List[int] = []
        for pending in self.pending:
            key, value = pending.line.key, pending.entry.value
            numbers += [_WITHDRAW, key] if value is None else [_ENTER, key, value]
            numbers.append(pending.refusal.number)
        return b"".join(map(_number_bytes, numbers)) + b"\0" + self.image

    @classmethod
    def read(cls, data: bytes) -> "Saved":
        """Reads what to_bytes wrote, else a Fault. The image is judged when it is loaded."""
        data = _bytes(data)
        reader = _Reader(data)
        pending = []
        while True:
            step = reader.number(0, _WITHDRAW, "STEP")
            if step == 0:
                return cls(data[reader.at :], tuple(pending))
            line = Line.of_key(reader.number())
            entry = Entry(reader.number()) if step == _ENTER else WITHDRAWN
            refusal = Refusal(Answer(reader.number(_GOING + 1, len(ANSWERS) - 1, "REFUSAL")))
            pending.append(Pending(line, entry, refusal))


class Book:
    """A store, and the entries that it could not take: they are pending.

    When the root is full, copies are carried down first. An entry that is refused all the same (FULL, CLOCK) is kept,
    the last one of each line. While a sample has an entry pending, the store still holds the old figure, and the kept
    page is still true to the store: so the book gives no page of that sample, and the notice is due.

    What the store does is proved; what the book does is tested.
    """

    __slots__ = ("_store", "_pending")

    def __init__(self, store: Store):
        self._store = store.copy()
        self._pending: Dict[Line, Pending] = {}

    @classmethod
    def fresh(cls, plan: int) -> "Book":
        """A book of a fresh store; or PLAN."""
        return cls(Store.fresh(plan))

    @classmethod
    def load(cls, saved: Saved) -> "Book":
        """The book that was saved; or the image's first fault. Of two entries pending for one line the later counts."""
        book = cls(Store.load(saved.image))
        for pending in saved.pending:
            book._keep(pending)
        return book

    def copy(self) -> "Book":
        """Another book with the same store and the same entries pending."""
        book = Book(self._store)
        book._pending.update(self._pending)
        return book

    def __copy__(self) -> "Book":
        return self.copy()

    def save(self) -> Saved:
        """What is to be kept overnight. The image alone would lose what is pending."""
        return Saved(self._store.save(), self.pending)

    @property
    def store(self) -> Store:
        """The book's store, copied. It holds older figures for the lines that have an entry pending."""
        return self._store.copy()

    @property
    def pending(self) -> Tuple[Pending, ...]:
        """What is pending, each line once, in the order of the refusals."""
        return tuple(self._pending.values())

    def enter(self, line: Line, value: int) -> Union[Stamp, Pending]:
        """Enters a result, and carries first if the root is full."""
        return self.take(line, Entry(value))

    def withdraw(self, line: Line) -> Union[Stamp, Pending]:
        """Withdraws a line, and carries first if the root is full."""
        return self.take(line, WITHDRAWN)

    def take(self, line: Line, entry: Entry) -> Union[Stamp, Pending]:
        """Enters or withdraws: the stamp, or what is pending now. What was pending for the line is older, and is
        pending no more."""
        try:
            stamp = self._carrying(line, entry)
        except Refusal as refusal:
            return self._keep(Pending(line, entry, refusal.with_traceback(None)))
        self._pending.pop(line, None)
        return stamp

    def _carrying(self, line: Line, entry: Entry) -> Stamp:
        """Takes an entry. If the root is full, copies are carried down until it is not, or until none moves."""
        while True:
            try:
                return self._store.take(line, entry)
            except Refusal as refusal:
                if refusal.number != _FULL or self._carry_all() == 0:
                    raise

    def _carry_all(self) -> int:
        """Carries along every edge once, from the last node up to the root, and gives the number of copies carried."""
        carried = 0
        for node in reversed(range(NODES)):
            for edge in range(EDGES):
                try:
                    carried += self._store.carry(node, edge).carried
                except Refusal:
                    break
        return carried

    def _keep(self, refused: Pending) -> Pending:
        self._pending.pop(refused.line, None)
        self._pending[refused.line] = refused
        return refused

    def retry(self) -> int:
        """Tries once more what is pending, and gives how many entries still are."""
        for pending in self.pending:
            self.take(pending.line, pending.entry)
        return len(self._pending)

    def anew(self, plan: int) -> "Book":
        """A book of a fresh store of the plan, into which each line's last entry is entered anew: first those that this
        store holds, by rising stamp, then what is pending. What finds no room there either is pending there.

        It helps when this store is full of copies that are no line's current one, or the clock has its last value.
        Kept pages are to be made anew. This book stays as it is."""
        book = Book.fresh(plan)
        held = {line: look for line, look in self._store.lines().items() if line not in self._pending}
        for line, look in sorted(held.items(), key=lambda pair: pair[1].stamp):
            book.take(line, Entry(look.value))
        for pending in self.pending:
            book.take(pending.line, pending.entry)
        return book

    def look(self, line: Line) -> Union[Look, Pending]:
        """What the line's last entry was: what the store's look finds, or what is pending."""
        return self._pending.get(line) or self._store.look(line)

    def pending_of(self, sample: int) -> Optional[Line]:
        """A line of the sample that has an entry pending, if there is one."""
        return next((line for line in self._pending if line.sample == sample), None)

    def page(self, sample: int) -> Page:
        """The sample's page, to keep; NoPage while an entry is pending, or SAMPLE."""
        line = self.pending_of(sample)
        if line is not None:
            raise NoPage(line)
        return self._store.page(sample)

    def still_true(self, sample: int, kept: bytes) -> Optional[bytes]:
        """The kept bytes' beginning, if it is the sample's page as it is now and nothing of the sample is pending;
        None: the notice is due."""
        return None if self.pending_of(sample) is not None else self._store.still_true(sample, kept)

    def serve(self, sample: int, kept: bytes, notice: bytes) -> bytes:
        """What still_true gives, else the whole notice."""
        shown = self.still_true(sample, kept)
        return notice if shown is None else shown

    def __repr__(self) -> str:
        return f"Book({self._store!r}, pending={len(self._pending)})"

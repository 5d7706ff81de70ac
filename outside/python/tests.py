"""Tests of olipranj.py and evening.py: document 01's P1 to P10, each type and each refusal, books beside a plain record of
each line's last entry, and the calls of a file that `compare --write` wrote.

    python3 tests.py [FILE]
"""

import copy
import ctypes
import os
import pathlib
import pickle
import random
import shutil
import struct
import subprocess
import sys
import tempfile
import unittest

import evening
import olipranj
from olipranj import ANSWERS, LAST_CLOCK, LAST_SAMPLE, WITHDRAWN, Answer, Book, Carried, Ended, Entry, Fault, Going, Held, Line
from olipranj import Never, NoLine, NoNumber, NoPage, Page, PageLine, Pending, Raw, Refusal, Result, Saved, Stamp, Store, Withdrawn

IMAGE = bytes([0x01, 0x01, 0x03, 0x00, 0x01, 0x21, 0x01, 0xD2, 0x01, 0x02, 0x00, 0x00])
PAGE = bytes([0x01, 0x01, 0x01, 0xD2, 0x01, 0x02])
NOTICE = b"the notice"
LINE = Line(1, 1)
LAST = 4294967295


def refusal(call, *given):
    """The refusal that a call raises; None if it raises none."""
    try:
        call(*given)
    except Refusal as refused:
        return refused
    return None


def answer(call, *given):
    """A refused call's name and its a."""
    refused = refusal(call, *given)
    return (refused.name, refused.answer.a) if refused else None


def at_clock(clock, plan=1):
    """A store without copies at a clock."""
    raw = Store.fresh(plan).raw
    raw.clock = clock
    return Store(raw)


def scheduled():
    """The store after the schedule of P1."""
    store = Store.fresh(1)
    store.enter(LINE, 180)
    store.carry(0, 0)
    store.start(LINE)
    store.step(0)
    store.enter(LINE, 210)
    store.carry(0, 0)
    store.step(0)
    return store


class Worked(unittest.TestCase):
    """P1 to P10 of document 01."""

    def test_p1_the_schedule(self):
        store = Store.fresh(1)
        self.assertEqual(LINE.key, 33)
        self.assertEqual(store.enter(LINE, 180), Stamp(1))
        self.assertEqual(store.carry(0, 0), Carried(1, 0, 0))
        self.assertEqual(store.start(LINE), 0)
        self.assertEqual(store.step(0), Going(1, 1))
        self.assertEqual(store.enter(LINE, 210), Stamp(2))
        self.assertEqual(store.carry(0, 0), Carried(1, 1, 0))
        self.assertEqual(store.step(0), Ended(Result(210, Stamp(2)), 2))
        self.assertEqual(answer(store.step, 0), ("IDLE", 0))
        self.assertEqual(store, scheduled())

    def test_p2_saved(self):
        self.assertEqual(scheduled().save(), IMAGE)
        self.assertEqual(Store.load(IMAGE), scheduled())

    def test_p3_page(self):
        self.assertEqual(scheduled().page(1), PAGE)

    def test_p4_empty_image(self):
        self.assertEqual(answer(Store.load, b""), ("CUT", 0))

    def test_p5_full(self):
        store = Store.fresh(1)
        for key in range(8):
            store.enter(Line.of_key(key), 0)
        before = store.copy()
        self.assertEqual(answer(store.enter, Line.of_key(8), 0), ("FULL", 0))
        self.assertEqual(store, before)
        self.assertEqual(store.enter(Line.of_key(3), 0), Stamp(9))

    def test_p6_clock(self):
        store = at_clock(4294967294)
        self.assertEqual(store.enter(LINE, 1), Stamp(4294967294))
        self.assertEqual(answer(store.enter, LINE, 1), ("CLOCK", 0))

    def test_p7_withdrawn(self):
        store = Store.fresh(1)
        store.enter(LINE, 180)
        store.carry(0, 0)
        store.withdraw(LINE)
        self.assertEqual(store.look(LINE), Withdrawn(Stamp(2)))

    def test_p8_never(self):
        store = Store.fresh(2)
        self.assertEqual(store.look(LINE), Never())
        store.start(LINE)
        self.assertEqual((store.step(0), store.step(0)), (Going(1, 1), Ended(Never(), 2)))

    def test_p9_slots(self):
        store = Store.fresh(1)
        self.assertEqual(answer(store.step, 7), ("IDLE", 0))
        self.assertEqual(answer(store.step, 8), ("SLOT", 0))

    def test_p10_sample(self):
        self.assertEqual(answer(Store.fresh(1).page, 134217728), ("SAMPLE", 0))
        self.assertEqual(len(Store.fresh(1).page(134217727)), 5)


class Typed(unittest.TestCase):
    """What calls take, give and refuse."""

    def test_a_line_refuses_what_is_too_large(self):
        self.assertEqual((Line(7, 1).key, str(Line(7, 1))), (225, "7/1"))
        self.assertEqual(Line.of_key(LAST), Line(LAST_SAMPLE, 31))
        for sample, analyte in ((7, 32), (7, 33), (LAST_SAMPLE + 1, 0), (-1, 0), (0, -1), (1 << 32, 0)):
            self.assertRaises(NoLine, Line, sample, analyte)
        self.assertRaises(TypeError, Line, 7.0, 1)
        self.assertRaises(NoNumber, Line.of_key, LAST + 1)

    def test_a_number_of_more_than_32_bits_is_refused_before_the_call(self):
        store, before = Store.fresh(1), Store.fresh(1)
        for number in (-1, LAST + 1, (1 << 32) + 1, 1 << 80):
            self.assertRaises(NoNumber, Store.fresh, number)
            self.assertRaises(NoNumber, store.enter, LINE, number)
            self.assertRaises(NoNumber, store.carry, number, 0)
            self.assertRaises(NoNumber, store.carry, 0, number)
            self.assertRaises(NoNumber, store.step, number)
            self.assertRaises(NoNumber, store.cancel, number)
            self.assertRaises(NoNumber, store.page, number)
            self.assertRaises(NoNumber, store.still_true, number, b"")
            self.assertRaises(NoNumber, Book(store).enter, LINE, number)
        self.assertRaises(TypeError, store.enter, LINE, 1.5)
        self.assertRaises(TypeError, store.still_true, 1, 5)
        self.assertRaises(TypeError, store.still_true, 1, None)
        self.assertRaises(TypeError, Store.load, "text")
        self.assertEqual(store, before)

    def test_a_refusal_says_name_number_and_meaning(self):
        store = Store.fresh(1)
        for analyte in range(8):
            store.enter(Line(1, analyte), 1)
        full = refusal(store.enter, Line(2, 0), 1)
        self.assertEqual((full.name, full.number), ("FULL", 5))
        self.assertEqual(full.meaning, "the root is full and has no copy of the line")
        self.assertEqual(str(full), "FULL (5): the root is full and has no copy of the line")
        self.assertEqual(str(refusal(store.carry, 4, 0)), "NODE (6): the plan has no such node")
        self.assertEqual(str(refusal(store.carry, 3, 0)), "EDGE (7): the node has no such edge")
        self.assertEqual(str(refusal(Store.fresh, 0)), "PLAN (3): there is no plan of this number")
        self.assertEqual(str(refusal(Store.load, b"\1\11")), "PLAN (3): there is no plan of this number, at offset 1")
        self.assertEqual(str(Refusal(Answer(11, 39))), "SMALL (11): the buffer is too short, 39 bytes are needed")
        self.assertEqual(str(Refusal(Answer(LAST))), "answer 4294967295, which the header does not have")
        self.assertIn("but with numbers", str(Refusal(Answer(0, 7))))
        self.assertEqual(pickle.loads(pickle.dumps(full)), full)

    def test_a_refused_fresh_or_load_leaves_the_old_store(self):
        store = scheduled()
        for image in (IMAGE[:6], IMAGE[:-1], IMAGE + b"\0", b"", b"\2" + IMAGE[1:]):
            try:
                store = Store.load(image)
            except Refusal:
                pass
            self.assertEqual(store, scheduled())
        try:
            store = Store.fresh(4)
        except Refusal:
            pass
        self.assertEqual(store, scheduled())

    def test_searches(self):
        store = Store.fresh(2)
        self.assertEqual([store.start(LINE) for _ in range(8)], list(range(8)))
        self.assertEqual(answer(store.start, LINE), ("SLOTS", 0))
        self.assertIsNone(store.cancel(3))
        self.assertEqual(answer(store.cancel, 3), ("IDLE", 0))
        self.assertEqual(store.start(LINE), 3)
        self.assertEqual(Store.load(store.save()), Store.fresh(2))

    def test_numbers_that_break_a_rule_are_no_store(self):
        self.assertEqual(answer(Store, Raw()), ("BADSTORE", 0))
        raw = scheduled().raw
        raw.counts[0] = LAST
        self.assertEqual(answer(Store, raw), ("BADSTORE", 0))
        self.assertEqual(Store(scheduled().raw), scheduled())

    def test_what_is_given_out_is_a_copy(self):
        store = scheduled()
        store.raw.clock = 0
        book = Book(store)
        book.store.enter(LINE, 1)
        store.enter(LINE, 2)
        self.assertEqual(book.look(LINE), Result(210, Stamp(2)))
        for copied in (copy.copy, copy.deepcopy):
            other, another = copied(store), copied(book)
            other.enter(LINE, 3)
            another.enter(LINE, 4)
            self.assertEqual((store.look(LINE).value, book.look(LINE).value), (2, 210))

    def test_a_store_is_read_by_node_and_by_line(self):
        store = Store.fresh(1)
        store.enter(LINE, 5)
        store.carry(0, 0)
        store.enter(LINE, 6)
        store.withdraw(Line(0, 2))
        root = (Held(Line(0, 2), WITHDRAWN, Stamp(3)), Held(LINE, Entry(6), Stamp(2)))
        below = (Held(LINE, Entry(5), Stamp(1)),)
        self.assertEqual(store.nodes(), [(0, 8, root), (1, 16, below), (2, 32, ()), (3, 64, ())])
        self.assertEqual(store.lines(), {Line(0, 2): Withdrawn(Stamp(3)), LINE: Result(6, Stamp(2))})
        self.assertEqual((store.plan, store.clock, store.copies), (1, 4, 3))
        zero = Store.fresh(3)
        zero.enter(LINE, 0)
        self.assertEqual(zero.nodes()[0].copies, (Held(LINE, Entry(0), Stamp(1)),))
        capacities = [[node.capacity for node in Store.fresh(plan).nodes()] for plan in (1, 2, 3)]
        self.assertEqual(capacities, [[8, 16, 32, 64], [8, 32, 32], [8, 16, 16, 64]])
        self.assertEqual(repr(store), "Store(plan=1, clock=4, counts=[2, 1, 0, 0, 0, 0, 0, 0], searches=0)")

    def test_value_zero_is_a_result(self):
        store = Store.fresh(1)
        store.enter(LINE, 0)
        self.assertEqual((store.look(LINE), store.look(LINE).value), (Result(0, Stamp(1)), 0))
        self.assertIsNone(store.look(Line(1, 2)).value)


class Pages(unittest.TestCase):
    """Pages, their lines, and kept pages."""

    def test_lines(self):
        page = scheduled().page(1)
        self.assertEqual((page.sample(), page.lines()), (1, [PageLine(LINE, 210, Stamp(2))]))
        self.assertEqual(Store.fresh(1).page(5).lines(), [])

    def test_bytes_that_are_no_page(self):
        for data, name, offset in (
            (b"", "CUT", 0), (b"\x80", "CUT", 0), (b"\x80\x00\x00", "NUMBER", 0), (b"\xff\xff\xff\xff\x10", "NUMBER", 0),
            (b"\x80\x80\x80\x40\x00", "SAMPLE", 0), (b"\x01\x21", "COUNT", 1), (b"\x01\x01\x20\x01\x01", "ANALYTE", 2),
            (b"\x01\x02\x03\x01\x01\x03\x01\x02", "ANALYTE", 5), (b"\x01\x01\x01\x01\x00", "STAMP", 4),
            (b"\x01\x01\x01\x01\xff\xff\xff\xff\x0f", "STAMP", 4), (b"\x01\x00\x00", "TRAIL", 2), (PAGE + b"\0", "TRAIL", 6),
            (PAGE[:-1], "CUT", 5),
        ):
            with self.assertRaises(Fault) as raised:
                Page(data).lines()
            self.assertEqual((raised.exception.name, raised.exception.offset), (name, offset))
            self.assertIn(f"offset {offset}: ", str(raised.exception))

    def test_the_longest_page_and_image(self):
        raw = Raw(plan=1, clock=LAST_CLOCK)
        key = 4294967040
        for node, count in enumerate(olipranj.CAPACITIES[1]):
            raw.counts[node] = count
            for at in range(node * 64, node * 64 + count):
                raw.keys[at], raw.kinds[at], raw.values[at], raw.stamps[at] = key, 1, LAST, key
                key += 1
        image = Store(raw).save()
        self.assertEqual(len(image), olipranj.LONGEST_IMAGE)
        self.assertEqual(Store.load(image), Store(raw))
        raw = Raw(plan=1, clock=LAST_CLOCK)
        raw.counts[3] = 32
        for at in range(32):
            place = 3 * 64 + at
            raw.keys[place], raw.kinds[place], raw.values[place], raw.stamps[place] = LAST - 31 + at, 1, LAST, LAST - 40 + at
        page = Store(raw).page(LAST_SAMPLE)
        self.assertEqual((len(page), len(page.lines())), (olipranj.LONGEST_PAGE, 32))

    def test_a_kept_page_until_an_amendment(self):
        store = scheduled()
        for kept in (PAGE, bytearray(PAGE), memoryview(PAGE), PAGE + b"more"):
            self.assertEqual(store.serve(1, kept, NOTICE), PAGE)
        self.assertIsNone(store.still_true(1, PAGE[:-1]))
        self.assertIsNone(store.still_true(1, b""))
        self.assertEqual(store.serve(2, PAGE, NOTICE), NOTICE)
        self.assertEqual(store.serve(LAST_SAMPLE + 1, PAGE, NOTICE), NOTICE)
        store.enter(LINE, 210)
        self.assertEqual(store.serve(1, PAGE, NOTICE), NOTICE)


class Books(unittest.TestCase):
    """A book beside each line's last entry."""

    def check(self, book, last, kept):
        """Looks, pages, and what is shown of kept pages, beside each line's last entry."""
        self.assertEqual(len({pending.line for pending in book.pending}), len(book.pending))
        for line, value in last.items():
            look = book.look(line)
            self.assertEqual(look.entry.value if isinstance(look, Pending) else look.value, value)
            self.assertFalse(isinstance(look, Never))
        for sample in {line.sample for line in last}:
            wanted = {line: value for line, value in last.items() if line.sample == sample and value is not None}
            shown = book.still_true(sample, kept.get(sample, b""))
            if shown is not None:
                self.assertEqual({line: value for line, value, _ in Page(shown).lines()}, wanted)
            if book.pending_of(sample) is None:
                kept[sample] = book.page(sample)
                self.assertEqual({line: value for line, value, _ in kept[sample].lines()}, wanted)
                self.assertEqual(book.serve(sample, kept[sample], NOTICE), kept[sample])
            else:
                self.assertRaises(NoPage, book.page, sample)
                self.assertEqual(book.serve(sample, kept.get(sample, b""), NOTICE), NOTICE)

    def run_case(self, number):
        chance = random.Random(number)
        plan = chance.randint(1, 3)
        store = Store.fresh(plan) if chance.random() < 0.7 else at_clock(LAST_CLOCK - chance.randint(0, 90), plan)
        book, last, kept = Book(store), {}, {}
        base, samples = chance.choice((0, 67108860, LAST_SAMPLE - 20)), chance.choice((3, 8, 20))
        for at in range(chance.choice((40, 120, 300))):
            line = Line(base + chance.randrange(samples), chance.randrange(8))
            last[line] = None if chance.random() < 0.2 else chance.choice((0, 7, LAST))
            taken = book.take(line, Entry(last[line]))
            self.assertTrue(isinstance(taken, (Stamp, Pending)))
            if at % 20 == 19:
                self.check(book, last, kept)
                saved = book.save()
                self.assertEqual(Saved.read(saved.to_bytes()), saved)
                again = Book.load(Saved.read(saved.to_bytes()))
                self.assertEqual((again.store.lines(), again.pending), (book.store.lines(), book.pending))
                book = again if chance.random() < 0.3 else book
        before = len(book.pending)
        self.assertLessEqual(book.retry(), before)
        self.check(book, last, kept)
        anew = book.anew(chance.randint(1, 3))
        self.check(anew, last, kept)
        return bool(before), book.store.clock == LAST_CLOCK

    def test_random_entries(self):
        seen = [self.run_case(number) for number in range(60)]
        self.assertTrue(any(pending and not last for pending, last in seen))
        self.assertTrue(any(pending and last for pending, last in seen))
        self.assertTrue(any(not pending for pending, last in seen))

    def test_a_refused_amendment_shows_the_notice(self):
        book = Book(at_clock(LAST_CLOCK - 1))
        self.assertEqual(book.enter(LINE, 180), Stamp(LAST_CLOCK - 1))
        kept = book.page(1)
        taken = book.enter(LINE, 210)
        self.assertEqual((taken.line, taken.entry, taken.refusal.name), (LINE, Entry(210), "CLOCK"))
        self.assertEqual(book.serve(1, kept, NOTICE), NOTICE)
        self.assertEqual(book.store.serve(1, kept, NOTICE), kept)
        self.assertEqual((book.look(LINE), book.retry()), (taken, 1))
        morning = Book.load(Saved.read(book.save().to_bytes()))
        self.assertEqual(morning.serve(1, kept, NOTICE), NOTICE)
        anew = book.anew(1)
        self.assertEqual((anew.pending, anew.page(1).lines()), ((), [PageLine(LINE, 210, Stamp(1))]))
        self.assertEqual(str(NoPage(LINE)), "an entry of line 1/1 is pending")

    def test_a_pending_entry_is_replaced_by_the_next(self):
        book = Book(at_clock(LAST_CLOCK))
        book.enter(LINE, 1)
        book.enter(Line(2, 1), 2)
        book.withdraw(LINE)
        self.assertEqual([(p.line, p.entry) for p in book.pending], [(Line(2, 1), Entry(2)), (LINE, WITHDRAWN)])

    def test_what_is_accepted_is_pending_no_more(self):
        full = Refusal(Answer(5))
        saved = Saved(Store.fresh(1).save(), (Pending(LINE, Entry(1), full), Pending(Line(2, 1), WITHDRAWN, full), Pending(LINE, Entry(3), full)))
        book = Book.load(saved)
        self.assertEqual([pending.line for pending in book.pending], [Line(2, 1), LINE])
        self.assertEqual((book.enter(LINE, 4), book.look(LINE)), (Stamp(1), Result(4, Stamp(1))))
        self.assertEqual([pending.line for pending in book.pending], [Line(2, 1)])
        self.assertEqual((book.copy().pending, book.retry(), book.pending), (saved.pending[1:2], 0, ()))
        self.assertEqual(book.look(Line(2, 1)), Withdrawn(Stamp(2)))

    def test_anew_enters_by_rising_stamp(self):
        book = Book.fresh(1)
        for line in (Line(2, 1), Line(1, 1), Line(3, 1), Line(2, 1)):
            book.enter(line, 0)
        anew = book.anew(2)
        stamps = [anew.look(Line(sample, 1)).stamp for sample in (1, 2, 3)]
        self.assertEqual((anew.store.plan, stamps), (2, [1, 3, 2]))
        self.assertEqual(answer(book.anew, 4), ("PLAN", 0))

    def test_bytes_that_are_no_saved_book(self):
        for data, name, offset in ((b"", "CUT", 0), (b"\3", "STEP", 0), (b"\1\41", "CUT", 2), (b"\2\41\1", "REFUSAL", 2),
                                   (b"\2\41\24", "REFUSAL", 2), (b"\x82\x00", "NUMBER", 0)):
            with self.assertRaises(Fault) as raised:
                Saved.read(data)
            self.assertEqual((raised.exception.name, raised.exception.offset), (name, offset))
        self.assertEqual(answer(Book.load, Saved.read(b"\0")), ("CUT", 0))


class Evening(unittest.TestCase):
    """The evening file: no damage is taken for good."""

    def test_each_bit_and_each_cut(self):
        data = evening.framed(IMAGE)
        self.assertEqual(evening.image_in(data), IMAGE)
        for bit in range(8 * len(data)):
            flipped = bytearray(data)
            flipped[bit // 8] ^= 1 << bit % 8
            self.assertIsNone(evening.image_in(bytes(flipped)))
        for length in range(len(data)):
            self.assertIsNone(evening.image_in(data[:length]))
        self.assertIsNone(evening.image_in(data + b"\0"))

    def test_old_files_are_kept(self):
        with tempfile.TemporaryDirectory() as folder:
            name = os.path.join(folder, "file")
            self.assertRaises(FileNotFoundError, evening.kept, name)
            evening.keep(name, b"first")
            evening.keep(name, b"second")
            self.assertEqual((evening.kept(name), evening.kept(name + ".before")), (b"second", b"first"))
            with open(name, "wb") as file:
                file.write(b"damaged")
            self.assertRaises(evening.Damaged, evening.kept, name)
            evening.keep(name, b"third")
            self.assertEqual((evening.kept(name), evening.kept(name + ".before")), (b"third", b"first"))
            self.assertEqual(sorted(os.listdir(folder)), ["file", "file.before", "file.damaged"])


HERE = pathlib.Path(__file__).resolve().parent


@unittest.skipUnless(shutil.which("cc"), "cc is not installed")
class Layout(unittest.TestCase):
    """The types are the header's, and a library of another layout is not imported."""

    def test_sizes_and_offsets_are_the_headers(self):
        with tempfile.TemporaryDirectory() as folder:
            program = os.path.join(folder, "layout")
            include, source = HERE.parent.parent / "include", HERE.parent / "olipranj" / "tests" / "layout.c"
            subprocess.run(["cc", "-I", include, source, "-o", program], check=True)
            wanted = subprocess.run([program], check=True, stdout=subprocess.PIPE).stdout.split()
        here = []
        for kind in (olipranj._Slot, Raw, olipranj._Answer):
            here.append(ctypes.sizeof(kind))
            here += [getattr(kind, field[0]).offset for field in kind._fields_]
        here += [ctypes.sizeof(ctypes.c_size_t), olipranj.LAYOUT] + list(range(len(ANSWERS)))
        self.assertEqual([str(number).encode() for number in here], wanted)

    def imported(self, library):
        """What an import with this library says on standard error."""
        environment = dict(os.environ, OLIPRANJ_LIBRARY=library)
        ended = subprocess.run([sys.executable, "-c", "import olipranj"], cwd=HERE, env=environment, stderr=subprocess.PIPE)
        return ended.returncode, ended.stderr.decode()

    def test_a_library_of_another_layout_is_refused(self):
        names = [name for name in olipranj._CALLS if name != "layout"]
        text = "unsigned olipranj_layout(void) { return 2; }\n" + "".join(f"void olipranj_{name}(void) {{}}\n" for name in names)
        with tempfile.TemporaryDirectory() as folder:
            library = os.path.join(folder, "another.so")
            subprocess.run(["cc", "-shared", "-fPIC", "-x", "c", "-", "-o", library], input=text.encode(), check=True)
            status, said = self.imported(library)
            self.assertEqual(status, 1)
            self.assertIn("has layout 2, and this file is for layout 1", said)
            subprocess.run(["cc", "-shared", "-fPIC", "-x", "c", "/dev/null", "-o", library], check=True)
            self.assertIn("ImportError: no library of Olipranj", self.imported(library)[1])
            self.assertIn("ImportError: no library of Olipranj", self.imported(os.path.join(folder, "none.so"))[1])


class Portal(unittest.TestCase):
    """The pieces of docs/PORTAL.md stand in the files that it names."""

    def test_each_piece_stands_in_its_file(self):
        top = HERE.parent.parent
        named, piece, count = None, None, 0
        for line in (top / "docs" / "PORTAL.md").read_text().splitlines():
            if line.startswith("In `") and line.endswith("`:"):
                named = line[4:-2]
            elif line.startswith("```") and piece is None:
                piece = []
            elif line.startswith("```"):
                text = [here.strip() for here in (top / named).read_text().splitlines()]
                self.assertIn("\n".join(piece), "\n".join(text), named)
                piece, count = None, count + 1
            elif piece is not None:
                piece.append(line.strip())
        self.assertGreater(count, 10)


FRESH, STEP, LOOK, SAVE, LOAD, PAGE_CALL, SERVE, PUT, GOOD = range(9)
NAMES = ("fresh", "step", "look", "save", "load", "page", "serve", "put", "good")
GUARD = 16


class Recorded:
    """The calls of a file (outside/compare/src/record.rs says how they stand there)."""

    def __init__(self, path):
        self.data = pathlib.Path(path).read_bytes()
        self.at = 0
        self.words = [0] * (ctypes.sizeof(Raw) // 4)

    def take(self, count):
        """The next words."""
        taken = struct.unpack_from(f"<{count}I", self.data, self.at)
        self.at += 4 * count
        return taken

    def bytes(self, length):
        """The next bytes."""
        self.at += length
        return self.data[self.at - length : self.at]

    def calls(self):
        """Each call: its code, its numbers, its buffer before and after, its answer, and the words of the store after."""
        while self.at < len(self.data):
            code, *numbers, length = self.take(5)
            before, after = self.bytes(length), self.bytes(length)
            number, *halves = self.take(9)
            wide = [halves[at] | halves[at + 1] << 32 for at in range(0, 8, 2)]
            for _ in range(self.take(1)[0]):
                place, word = self.take(2)
                self.words[place] = word
            yield code, numbers, before, after, Answer(number, *wide), struct.pack(f"={len(self.words)}I", *self.words)


class Replayed(unittest.TestCase):
    """Calls that were compared before: as the library's functions are called here, and by type."""

    path = None

    def plain(self, code, raw, numbers, before):
        """A call's answer and its buffer after it, with bytes around the buffer that it must leave."""
        buffer = (ctypes.c_ubyte * (len(before) + 2 * GUARD)).from_buffer_copy(b"\xa5" * GUARD + before + b"\xa5" * GUARD)
        lent = ctypes.cast(ctypes.addressof(buffer) + GUARD, ctypes.POINTER(ctypes.c_ubyte))
        given = {
            FRESH: numbers[:1], STEP: numbers, LOOK: numbers[:1], GOOD: [], SAVE: [lent, len(before)], LOAD: [before, len(before)],
            PAGE_CALL: [numbers[0], lent, len(before)], SERVE: [numbers[0], before, len(before)],
        }[code]
        if code == SERVE:
            return Answer(0, olipranj._library["serve"](ctypes.byref(raw), *given)), bytes(buffer)
        return olipranj._call(NAMES[code], raw, *given), bytes(buffer)

    def typed(self, code, store, numbers, before):
        """What the call gives by type. A step's second number, where it has one of its own only, is ignored."""
        number, x, y = numbers
        return {
            (STEP, 1): lambda: store.enter(Line.of_key(x), y),
            (STEP, 2): lambda: store.withdraw(Line.of_key(x)),
            (STEP, 3): lambda: store.carry(x, y),
            (STEP, 4): lambda: store.start(Line.of_key(x)),
            (STEP, 5): lambda: store.step(x),
            (STEP, 6): lambda: store.cancel(x),
            LOOK: lambda: store.look(Line.of_key(number)),
            SAVE: store.save,
            PAGE_CALL: lambda: store.page(number),
            SERVE: lambda: store.still_true(number, before),
            GOOD: store.copy,
        }[(code, number) if code == STEP else code]()

    def wanted(self, code, numbers, before, after, answered, new):
        """The same from the recorded answer."""
        number, a, b, c, d = answered
        look = (Never(), Withdrawn(Stamp(c)), Result(b, Stamp(c)), None)[min(a, 3)]
        return {
            (STEP, 1): Stamp(a),
            (STEP, 2): Stamp(a),
            (STEP, 3): Carried(a, b, c),
            (STEP, 4): a,
            (STEP, 5): Going(a, b) if number == 1 else Ended(look, d),
            (STEP, 6): None,
            LOOK: look,
            SAVE: after[:a],
            PAGE_CALL: after[:a],
            SERVE: before[:a] or None,
            GOOD: Store(Raw.from_buffer_copy(new)),
        }[(code, numbers[0]) if code == STEP else code]

    def laid_down(self, code, numbers, before, answered, new):
        """A fresh or load by type, beside what was recorded."""
        made = (lambda: Store.fresh(numbers[0])) if code == FRESH else (lambda: Store.load(before))
        if answered.number == 0:
            self.assertEqual(made(), Store(Raw.from_buffer_copy(new)))
        else:
            self.assertEqual(refusal(made).answer, answered)

    def by_type(self, code, numbers, before, after, answered, old, new):
        """Another call by type on the store before it, beside what was recorded."""
        bad = refusal(Store, Raw.from_buffer_copy(old))
        if bad is not None or (answered.number == 2 and code != SERVE):
            self.assertEqual((bad.name, answered), ("BADSTORE", Answer(0 if code == SERVE else 2)))
            return
        name = ANSWERS[answered.number][0]
        store = Store(Raw.from_buffer_copy(old))
        if name == "OP":
            return
        if name == "SMALL":
            self.assertEqual(len(self.typed(code, store, numbers, before)), answered.a)
        elif name in ("DONE", "GOING"):
            wanted = self.wanted(code, numbers, before, after, answered, new)
            self.assertEqual(self.typed(code, store, numbers, before), wanted)
        else:
            self.assertEqual(refusal(self.typed, code, store, numbers, before).answer, answered)
        self.assertEqual(bytes(store.raw), new)

    def test_recorded_calls(self):
        if self.path is None:
            self.skipTest("no file of calls was given")
        raw, count = Raw(), 0
        for code, numbers, before, after, answered, new in Recorded(self.path).calls():
            if code == PUT:
                raw = Raw.from_buffer_copy(new)
                continue
            old = bytes(raw)
            given, buffer = self.plain(code, raw, numbers, before)
            self.assertEqual((given, bytes(raw)), (answered, new))
            self.assertEqual(buffer, b"\xa5" * GUARD + after + b"\xa5" * GUARD)
            if code in (FRESH, LOAD):
                self.laid_down(code, numbers, before, answered, new)
            else:
                self.by_type(code, numbers, before, after, answered, old, new)
            count += 1
        self.assertGreater(count, 0)
        print(f"python: {count} recorded calls, no difference")


if __name__ == "__main__":
    if len(sys.argv) > 1:
        Replayed.path = sys.argv.pop(1)
    unittest.main()

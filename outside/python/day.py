"""A portal's day in Python, from the first entry to the next morning; outside/day runs it. outside/evening/examples/day.rs
and outside/c/day.c are the same day: they print the same lines and write the same files.

    python3 day.py evening NAME    a day, and its evening file
    python3 day.py morning NAME    the next morning, by another process
"""

import sys

import evening
from olipranj import Book, Line, Pending, Saved

HARDNESS, IRON, NITRATE = 1, 2, 3
SAMPLES = range(1, 21)
NOTICE = b"This page is being made anew."


def entered(book, sample, analyte, value):
    """Enters a result, and says so if it is pending. What is pending is kept in the book, and saved with it."""
    taken = book.enter(Line(sample, analyte), value)
    if isinstance(taken, Pending):
        print(f"{taken.line} pending: {taken.refusal.name}")
    return not isinstance(taken, Pending)


def results(book, samples, more):
    """Three results for each sample."""
    for sample in samples:
        entered(book, sample, HARDNESS, 100 + sample + more)
        entered(book, sample, IRON, sample + more)
        entered(book, sample, NITRATE, 2 * sample + more)


def is_shown(book, sample, kept):
    """Whether the kept page is what a household sees, and not the notice."""
    return book.serve(sample, kept, NOTICE) == kept


def renew(book, pages, sample):
    """Makes the sample's page anew if the kept one is not shown. While an entry is pending there is no page: the notice stays."""
    if not is_shown(book, sample, pages[sample]) and book.pending_of(sample) is None:
        pages[sample] = book.page(sample)


def shown(book, pages):
    """Says how many kept pages are shown, and for how many samples the notice."""
    count = sum(is_shown(book, sample, kept) for sample, kept in pages.items())
    print(f"{count} kept pages shown, {len(pages) - count} notices")


def say(book, sample, kept):
    """Says what a household sees."""
    print(f"sample {sample}: {'the kept page' if is_shown(book, sample, kept) else 'the notice'}")


def day(name):
    """A hundred entries, pages kept and served, amendments, the evening file."""
    book = Book.fresh(1)
    results(book, SAMPLES, 0)
    pages = {sample: b"" for sample in SAMPLES}
    for sample in SAMPLES:
        renew(book, pages, sample)
    print(f"60 entries, {book.store.copies} copies held")
    shown(book, pages)
    results(book, SAMPLES[:10], 1)
    for sample in SAMPLES[:10]:
        entered(book, sample, HARDNESS, 200 + sample)
    print(f"100 entries, {book.store.copies} copies held")
    shown(book, pages)
    for sample in SAMPLES:
        renew(book, pages, sample)
    shown(book, pages)
    for line, value, stamp in pages[7].lines():
        print(f"{line} is {value}, stamp {stamp}")
    evening.keep(name, book.save().to_bytes())
    evening.keep(name + ".page", pages[7])


def morning(name):
    """The book and a kept page from the files; an amendment; more lines than the store holds."""
    book = Book.load(Saved.read(evening.kept(name)))
    pages = {7: evening.kept(name + ".page")}
    print(f"loaded, {book.store.copies} copies held, {len(book.pending)} pending")
    say(book, 7, pages[7])
    entered(book, 7, HARDNESS, 180)
    say(book, 7, pages[7])
    sample = 100
    while entered(book, sample, HARDNESS, 1):
        sample += 1
    pages[sample] = b""
    renew(book, pages, 7)
    renew(book, pages, sample)
    say(book, 7, pages[7])
    say(book, sample, pages[sample])
    entered(book, 7, NITRATE, 99)
    renew(book, pages, 7)
    say(book, 7, pages[7])
    evening.keep(name, book.save().to_bytes())
    again = Book.load(Saved.read(evening.kept(name)))
    print(f"loaded, {again.store.copies} copies held, {len(again.pending)} pending")
    say(again, 7, pages[7])


if __name__ == "__main__":
    {"evening": day, "morning": morning}[sys.argv[1]](sys.argv[2])

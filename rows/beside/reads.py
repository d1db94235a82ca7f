"""`watch` reads pages beside the peer that makes and publishes them: each is the text after some step, and none is older than the last.

How new the pages are is left to the threads. The run is made by one worker and is the same each time.
"""
from row import Row, difference, text


def shown(count):
    return f"show {'a' * count}".rstrip()


def report(lines):
    """What is written of the run: so many inserts, and a page before the first and behind each."""
    yield f"run {2 * lines + 1}"
    yield "0 show => show"
    for count in range(1, lines + 1):
        yield f"0 edit insert 0 a => done {count}.0 0"
        yield f"0 show => {shown(count)}"
    yield shown(lines)
    yield "held 0"


def pages(lines):
    """The line of each page that may be read, and of which place it is."""
    return {f"read {2 * count + 1} {'a' * count}".rstrip(): count for count in range(lines + 1)}


def wrong_reads(written, lines, reads):
    due = text(report(lines))
    if not written.startswith(due):
        return difference(written[: len(due)], due)
    told, known = written[len(due) :].decode().splitlines(), pages(lines)
    if len(told) != reads or not all(line in known for line in told):
        return f"not {reads} pages of this run are read: {told}"
    places = [known[line] for line in told]
    return None if places == sorted(places) else f"a page is older than the one before: {told}"


def rows():
    for lines, reads in ((1, 1), (200, 100)):
        check = lambda _, written, lines=lines, reads=reads: wrong_reads(written, lines, reads)
        yield Row(["watch", "0", str(reads)], text(lines * ["edit insert 0 a"]), check=check, part=f"{reads} of {lines + 1} pages")

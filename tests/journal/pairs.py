"""Which response belongs to which request, the rows of a journal, and what the last line counts,
as docs/MAKE-A-JOURNAL.md has it."""
import collections

import messages

# A request waits while this many others come
WAITS = 16384
NAME_MAX = 64
ROWS_MAX = 1_000_000
FIRST_MAX = 9_999_999_999
PAIR_COUNTS = (
    "exchanges without-response without-request skipped unknown wrong-checksum"
    " without-checksum repeated mismatched"
).split()
STREAM_COUNTS = "gaps parts cut fragments stray foreign foreign-bytes".split()
# What is named on standard error, with its place: the first three of each kind
NAMED = {
    "skipped": "skipped",
    "without-request": "a response without a request",
    "mismatched": "a response to another request",
}
NAMED_MAX = 3
WRONG = {*PAIR_COUNTS[1:], *STREAM_COUNTS} - {"skipped", "foreign", "foreign-bytes"}


class Pairs:
    """What was found so far: rows of a name, a request and its response, in their order. By kind a
    response may answer an older open request of its client (the program doesn't do so yet)."""

    def __init__(self, by_kind=False):
        self.by_kind = by_kind
        self.rows, self.open = [], {}
        self.counts = collections.Counter()
        # why the documents don't say what comes of it, or the program is known to do otherwise
        self.undecided = set()
        # where what is read stands, and where the first of each kind that is named stood
        self.place, self.named = None, {it: [] for it in NAMED}
        # of each name: its requests that have a checksum, and those that are odd without one
        self.shares = collections.defaultdict(collections.Counter)
        # whether it is known which rows come first, those of one client or those of another
        self.is_order_known = True
        # what makes the status 1 and has no count; what makes it 2, but by force; what ends it
        self.doubts, self.refusals, self.errors = [], [], []

    def find(self, side, name, message):
        """Takes a message of a client."""
        self.counts["messages"] += 1
        if len(name) > NAME_MAX:
            self.errors.append("a long name")
        what = messages.odd(side, message)
        if what:
            self.counts[what] += 1
        (self.ask if side == "request" else self.answer)(name, message)
        if message[:2] == messages.RESEND_RESPONSE and messages.detection(message):
            self.undecided.add("a 97 with a checksum")
        elif side == "request" and what != "unknown" and message[:2] != messages.RESEND_RESPONSE:
            has = messages.detection(message) is not None
            self.shares[name].update(has=has, lacks=not (has or what))

    def count(self, what):
        """Counts what is named, too."""
        self.counts[what] += 1
        if len(self.named[what]) < NAMED_MAX:
            self.named[what].append(self.place)

    def ask(self, name, request):
        self.open.setdefault(name, []).append(len(self.rows))
        self.rows.append([name, request, b""])

    def answered(self, name, response):
        """The row that a response belongs to, or nothing."""
        waiting = [it for it in self.open.pop(name, []) if len(self.rows) - it <= WAITS]
        if not self.by_kind:
            return waiting[-1] if waiting else None
        fit = [it for it in waiting if messages.fits(self.rows[it][1], response)]
        found = (fit or (waiting if len(waiting) == 1 else [None]))[0]
        self.open[name] = [it for it in waiting if it != found]
        return found

    def answer(self, name, response):
        at = self.answered(name, response)
        if at is None:
            self.count("without-request")
            return
        self.rows[at][2] = response
        if not response:
            self.undecided.add("an empty response")
        if not messages.fits(self.rows[at][1], response):
            self.count("mismatched")

    def close(self, name):
        """A connection is over, or a request of it may be missing: what comes is no response to
        what it asked."""
        self.open.pop(name, None)

    def leave(self, name):
        """Who has this name from here on is another one."""
        self.shares[name, len(self.shares)] = self.shares.pop(name, collections.Counter())

    def judge(self, drops_repeated=False):
        """Counts what is counted of the whole, and returns the rows that are kept."""
        for of in self.shares.values():
            # (a request with bytes after its checksum is neither)
            is_usual = of["has"] * 10 >= of["has"] + of["lacks"]
            self.counts["without-checksum"] += of["lacks"] if is_usual else 0
        kept, last = [], {}
        for row in self.rows:
            name, request, response = row
            # (of requests that are alike in a row, with the response that one of them got)
            first, said = last.get(name, (None, b""))
            if first and messages.is_again((first[1], said), (request, response)):
                self.counts["repeated"] += 1
                last[name] = first, said or response
                if said and not response:
                    self.undecided.add("sent again without a response, after one with it")
                if drops_repeated:
                    first[2] = said or response
                    continue
            else:
                last[name] = row, response
            kept.append(row)
        self.counts["exchanges"] = len(kept)
        self.counts["without-response"] = sum(not it[2] for it in kept)
        return kept

    def status(self, forced=False):
        """The status of a judged journal."""
        counts, odd = self.counts, "unknown wrong-checksum without-checksum".split()
        many = sum(counts[it] for it in odd) * 10 > counts["messages"]
        if self.errors or not forced and (self.refusals or many or not self.rows):
            return 2
        wrong = [it for it in WRONG if counts[it]]
        return int(bool(wrong or self.doubts or not self.rows))


def field(text):
    """A field of a row, in quotes where CSV needs them."""
    if any(it in text for it in b',"\r\n'):
        return b'"' + text.replace(b'"', b'""') + b'"'
    return text


def journal(rows, first=1):
    lines = [b"line,connection,request,response"]
    lines += [b"%d,%s" % (at, b",".join(map(field, row))) for at, row in enumerate(rows, first)]
    return b"\n".join(lines) + b"\n"

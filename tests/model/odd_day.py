"""Made-up days of a library whose server did otherwise than the rules say, or told it otherwise.

The requests are those of day.py and some that a desk seldom sends; the responses differ from the
rules' answers in each way that a replay as recorded distinguishes, and in some that it must not.
"""

import os
import random

import day
import model
import recorded

EXAMPLE = os.path.join(os.path.dirname(os.path.abspath(__file__)), "../../examples/library-day")
DAY, PATRONS, ITEMS, LINES = model.day_of("20260307"), 60, 150, 260
FORMS = ("sip", "us", "iso")

# of the responses: as the rules answer; asked for again; missing, cut short or of another kind;
# with a byte or more that is another
AS_RULED, AGAIN, UNREAD, DAMAGED = 0.55, 0.06, 0.05, 0.06
BYTES = '|01YN /-.,96ABMQHV"\r\n\x00\xff'
NOT_A_DATE = "20260231    101500"


class OddDay(day.Day):
    """The requests of a day, each asked for when the ones before it have been carried out."""

    VISITS = (*day.Day.VISITS, ("lend_oddly", 20), ("renew_oddly", 30), ("ask_oddly", 90))

    def flag(self, share=0.5):
        return "Y" if self.random.random() < share else "N"

    def said(self, name):
        """A field that says yes or no, or none."""
        return self.random.choice(("", f"{name}Y|", f"{name}Y|", f"{name}N|"))

    def someone(self):
        return "P99999" if self.random.random() < 0.04 else self.borrower()

    def something(self, patron):
        """An item on loan to this patron or to another, on its shelf, waited for, one that has a
        rental, or an unknown one."""
        kind = self.random.random()
        loans = self.records.patrons[patron].loans if patron in self.records.patrons else ()
        if kind < 0.05:
            return "I99999"
        if kind < 0.4 and loans:
            return self.random.choice(loans)
        if kind < 0.5:
            return self.wanted_item(self.flag() == "Y") or self.item(True)
        if kind < 0.7:
            return self.rented()
        return self.item(kind < 0.8)

    def rented(self):
        """An item that has a rental, if one is met soon."""
        for _ in range(20):
            id = self.random.choice(self.items)
            if self.policy.media[self.records.items[id].media]["rental"]:
                break
        return id

    def due(self):
        """What stands for an nb due date: no date, one, or what isn't one."""
        text = model.day_text(self.day + self.random.randint(0, 30)) + "    235900"
        return self.random.choice((" " * 18, text, text, NOT_A_DATE))

    def lend_oddly(self, _connection):
        for _ in range(self.random.randint(1, 3)):
            patron = self.someone()
            flags, item = self.flag() + self.flag(0.3), self.something(patron)
            more = self.said("BO") + (self.said("BI") if self.random.random() < 0.4 else "")
            yield f"11{flags}{self.date()}{self.due()}AORIVERSIDE|AA{patron}|AB{item}|{more}"

    def renew_oddly(self, _connection):
        for _ in range(self.random.randint(1, 3)):
            patron = self.someone()
            flags, item = self.flag() + self.flag(0.3), self.something(patron)
            more = self.said("BO") + (self.said("BI") if self.random.random() < 0.3 else "")
            yield f"29{flags}{self.date()}{self.due()}AORIVERSIDE|AA{patron}|AB{item}|{more}"

    def ask_oddly(self, _connection):
        kind, patron, date = self.random.randrange(6), self.someone(), self.date()
        item = "I99999" if self.random.random() < 0.1 else self.something(patron)
        if kind == 0:
            yield f"09N{date}{self.due()}APMain|AORIVERSIDE|AB{item}|{self.said('BI')}"
        elif kind == 1:
            amount, currency = self.random.choice(("0", "0.5", "100")), self.random.choice(
                ("USD", "EUR")
            )
            yield f"37{date}0400{currency}BV{amount}|AORIVERSIDE|AA{patron}|"
        elif kind == 2:
            blocked = [id for id, it in self.records.patrons.items() if it.blocked]
            patron = self.random.choice([patron, patron, *blocked])
            yield f"15{self.random.choice('+-*')}{date}BSEast|AORIVERSIDE|AA{patron}|AB{item}|"
        elif kind == 3:
            yield f"19{date}AORIVERSIDE|AB{item}|CH{self.random.choice(('torn', ''))}|"
        elif kind == 4:
            yield f"65{date}AORIVERSIDE|AA{patron}|{self.said('BO')}"
        else:
            yield f"{self.random.choice(('01N', '25'))}{date}AORIVERSIDE|AA{patron}|"


class Response:
    """A response as its fixed part and its fields, in order."""

    def __init__(self, text):
        self.kind = text[:2]
        fixed, _ = model.response_of(text)
        self.fixed, end = list(fixed), 2 + len(fixed)
        self.fields = [(it[:2], it[2:]) for it in text[end:].split("|") if it]

    def text(self):
        fields = "".join(f"{name}{text}|" for name, text in self.fields)
        return self.kind + "".join(self.fixed) + fields

    def put(self, name, *texts):
        """Puts these texts in the place of the fields of a name."""
        self.fields = [it for it in self.fields if it[0] != name]
        self.fields += [(name, text) for text in texts]

    def flip(self, place, letters):
        self.fixed[place] = letters[self.fixed[place] == letters[0]]


class Teller:
    """What is recorded for each request: mostly the answer, else something that differs from it."""

    def __init__(self, records, seed):
        self.random, self.records = random.Random(f"{seed} told"), records

    def happens(self, share):
        return self.random.random() < share

    def response(self, request, answer):
        """What is recorded for a request that the rules answer so."""
        bare, sequence = model.take_sum(answer)
        kind = self.random.random()
        if kind < AS_RULED or answer == "96AZFEF6":
            return answer
        if kind < AS_RULED + AGAIN:
            return self.random.choice(("96AZFEF6", "96", "96AZ0000\r"))
        if kind < AS_RULED + AGAIN + UNREAD:
            return self.unread(bare)
        if kind < AS_RULED + AGAIN + UNREAD + DAMAGED:
            return self.damaged(answer)
        told = Response(bare)
        getattr(self, f"tell_{told.kind}")(told, request)
        text = told.text() + (f"AY{sequence}AZ" if sequence else "")
        return text + (f"{model.sum_of(text):04X}\r" if sequence else "")

    def unread(self, bare):
        other = "12" if bare[:2] != "12" else "30"
        return self.random.choice(("", "\r\n", bare[:2], bare[:12], other + bare[2:], "9", "98YY"))

    def damaged(self, text):
        """A text in which some bytes are others, are lacking or have come in."""
        for _ in range(self.random.choice((1, 1, 2, 5))):
            at = self.random.randrange(self.random.choice((4, len(text))))
            width = self.random.choice((0, 1, 1, 2))
            text = (
                text[:at]
                + self.random.choice(BYTES) * self.random.randrange(2)
                + text[at + width :]
            )
        return text

    # ------------------------------------------------------------ how each kind of response differs

    def tell_10(self, told, _request):
        told.flip(*((0, "10") if self.happens(0.8) else (3, "YN")))
        place = self.random.randrange(5)
        if place < 3:
            told.put("AQ", *((), ("",), ("", "Main"))[place])
        if self.happens(0.05):
            told.fixed[0] = "Y"

    def tell_12(self, told, request):
        """One or more of ok, renewal ok, the due day and the rental are told otherwise."""
        some = [it for it in ("ok", "renewal", "due", "fee") if self.happens(0.35)]
        if "ok" in some:
            told.flip(0, "10")
        if "renewal" in some or not some:
            told.flip(1, "YN")
        if told.fixed[0] == "1" and ("due" in some or "ok" in some and self.happens(0.8)):
            told.put("AH", *self.due(request))
        if "fee" in some:
            told.put("BV", *self.random.choice(((), ("",), ("0",), ("1.50",), ("0.5",), ("", "2"))))
        if self.happens(0.05):
            told.put("BV", "1,5")
        if self.happens(0.03):
            told.fixed[0] = "Y"

    tell_30 = tell_12

    def due(self, request):
        """The texts of AH: none, an empty one, a day in one of the forms, or what is none."""
        text = model.day_text(
            request.day + self.random.choice((7, 14, 21, self.random.randrange(40)))
        )
        year, month, day = text[:4], text[4:6], text[6:]
        forms = (f"{text}    235900", f"{year}-{month}-{day}", f"{month}/{day}/{year}")
        others = ("", f"{day}.{month}.{year}", "20260230", "19/45/2026", "soon")
        if self.happens(0.1):
            return ()
        return (self.random.choice(forms if self.happens(0.8) else others), "20300101")[
            : self.random.choice((1, 1, 2))
        ]

    def tell_16(self, told, _request):
        told.flip(*((0, "10") if self.happens(0.8) else (1, "YN")))
        if self.happens(0.05):
            told.fixed[1] = "1"

    def tell_20(self, told, _request):
        told.fixed[0] = "0" if told.fixed[0] == "1" else "1"
        if self.happens(0.2):
            told.fixed[0] = "Y"

    def tell_38(self, told, _request):
        told.flip(0, "YN")
        if self.happens(0.05):
            told.fixed[0] = "1"

    def tell_24(self, told, _request):
        told.fixed[self.random.randrange(14)] = self.random.choice(" Y")
        if self.happens(0.3):
            told.put("BL", "N")

    tell_26 = tell_24

    def tell_66(self, told, request):
        """Other items are named, in another order, twice, fewer than are counted, or strangers."""
        patron = self.records.patrons.get(request.patron)
        names = [text for name, text in told.fields if name == "BM"]
        mine = list(patron.loans) if patron else []
        some = [id for id in mine if self.happens(0.6)]
        stranger = self.random.choice([*self.records.items, "I99999", ""])
        names = self.random.choice(
            (names[:-1], names[::-1], some, some, [*some, stranger], names * 2)
        )
        told.put("BM", *names)
        count = len(names) + self.random.choice((0, 0, 0, 1, -1))
        told.fixed[1:5] = f"{max(count, 0):04}"
        if self.happens(0.2):
            told.flip(0, "10")
        if self.happens(0.03):
            told.fixed[4] = "x"


# ---------------------------------------------------------------- a day as files


def way_of(outcome):
    """What an outcome says, in a word."""
    if outcome is None:
        return "none"
    if isinstance(outcome, recorded.NotTaken):
        return "again"
    if isinstance(outcome, recorded.Said):
        return "yes" if outcome.yes else "no"
    return "no" if isinstance(outcome, recorded.Refused) else "yes"


def made_day(folder, seed, met):
    """Writes the inputs of a day. Counts in met what responses say of which request, and what comes
    of it. Returns the policy, the rows of the tables and of the journal."""
    text = model.read(f"{EXAMPLE}/policy.toml").replace('"sip"', f'"{FORMS[seed % 3]}"')
    library = day.Library(model.Policy(text), DAY, PATRONS, ITEMS, f"odd {seed}")
    records, journal = model.Records(library.policy, library.rows), []
    teller = Teller(records, seed)
    requests = OddDay(library, records, f"odd {seed}", LINES, LINES).requests()
    for line, (connection, asked) in enumerate(requests, 1):
        request, told = model.read_request(asked), ""
        if isinstance(request, model.Request):
            told = teller.response(request, recorded.judge(records, line, request, "")[0])
            outcome = recorded.outcome_of(records.policy, request, told)
            came = recorded.come_of(records, line, request, told)[1]
            met[f"{request.kind} {way_of(outcome)} {came}"] += 1
        elif request[0] == "resend":
            told = teller.random.choice(("96AZFEF6", "96AZFEF6", "", "121NUY"))
        journal.append((str(line), connection, asked, told))
    os.makedirs(f"{folder}/base")
    model.write(f"{folder}/policy.toml", text)
    for table, rows in library.rows.items():
        model.write(f"{folder}/base/{table}.csv", model.text_of(table, rows))
    model.write(f"{folder}/journal.csv", model.text_of("journal", journal))
    return library.policy, library.rows, journal

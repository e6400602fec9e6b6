"""A circulation server with rules of its own, which keeps its own records and tells what it did.

It shares no code with the rules of model.py. Its loan periods and prices go by classes, titles are
waited for beside the queues of the tables, it lends what is lent to another, takes holds of blocked
cards, and for some minutes it refuses all. Each request is one deed, told as it was done.
"""

import datetime
import random

# of each request the beginning of the response that refuses it
REFUSED = {"09": "100NUN", "11": "120NUN", "15": "160N", "19": "200", "29": "300NUN", "37": "38N"}


def is_day(text):
    return text[:8].isdigit() and text[12:18].isdigit()


def day_at(text):
    return datetime.datetime.strptime(text[:8], "%Y%m%d").date()


def cents(text):
    return round(float(text) * 100)


def money(amount):
    return f"{amount / 100:.2f}"


class Message:
    """A request as this server reads it."""

    # where the date begins, and the length of the fixed part
    SHAPES = {"01": (3, 21), "09": (3, 39), "11": (4, 40), "15": (3, 21), "19": (2, 20)}
    SHAPES |= {"25": (2, 20), "29": (4, 40), "37": (2, 27), "65": (2, 20)}

    def __init__(self, text):
        self.kind, (start, end) = text[:2], self.SHAPES[text[:2]]
        self.flags, self.date, self.rest = (
            text[2:start],
            text[start : start + 18],
            text[start + 18 : end],
        )
        self.today, self.fields = day_at(self.date), {}
        for piece in text[end:].split("|"):
            self.fields.setdefault(piece[:2], piece[2:])
        self.patron, self.item = self.fields.get("AA"), self.fields.get("AB")

    def has(self, name):
        return self.fields.get(name) == "Y"

    def second_day(self):
        return day_at(self.rest) if is_day(self.rest) else None


class Server:
    """The server of a library; tables are lists of rows as a base has them."""

    def __init__(self, terms, tables, seed):
        self.random, self.terms = random.Random(f"{seed} server"), terms
        self.tells_rentals = self.random.random() < 0.7
        self.cards = {
            row[0]: dict(group=row[2], blocked=row[3] == "Y") for row in tables["patrons"]
        }
        self.names = {row[0]: row[1] for row in tables["patrons"]}
        self.things = {row[0]: list(row[1:]) for row in tables["items"]}
        # of each item on loan: patron, due day, renewals, and whether a renewal of all set the day
        self.loans = {
            row[1]: [row[0], day_at(row[2]), int(row[3]), False] for row in tables["loans"]
        }
        self.queues = {id: [] for id in self.things}
        for item, patron, pickup in tables["holds"]:
            self.queues[item].append((patron, pickup))
        # of each patron the open fees, oldest first
        self.owing = {id: [] for id in self.cards}
        for id, patron, kind, amount, paid in tables["fees"]:
            self.owing[patron].append([id, kind, cents(amount), cents(paid)])
        self.settled = [tuple(row) for row in tables["closed"]]
        titles = sorted({row[1] for row in tables["items"]})
        self.wanted_titles = set(self.random.sample(titles, len(titles) // 8))
        groups = sorted({it["group"] for it in self.cards.values()})
        self.period = {group: self.random.choice((0, 0, 7, 14)) for group in groups}
        self.price = {group: self.random.choice((0, 1, 1, 2)) for group in groups}
        self.most = {group: self.random.choice((3, 6, 12, 40)) for group in groups}
        self.refusing = self.random.randrange(40, 90)

    def tables(self):
        """Its records as the rows of a base."""
        loans = [
            (patron, item, f"{due:%Y%m%d}", str(count))
            for patron in sorted(self.cards)
            for item, (holder, due, count, _) in self.loans.items()
            if holder == patron
        ]
        fees = [
            (id, patron, kind, money(amount), money(paid))
            for patron in sorted(self.cards)
            for id, kind, amount, paid in self.owing[patron]
        ]
        return {
            "patrons": [
                (id, self.names[id], it["group"], "NY"[it["blocked"]])
                for id, it in sorted(self.cards.items())
            ],
            "items": [(id, *it) for id, it in sorted(self.things.items())],
            "loans": loans,
            "fees": fees,
            "closed": sorted(self.settled),
            "holds": [(id, *it) for id in sorted(self.queues) for it in self.queues[id]],
        }

    def days_of_all(self):
        """The pairs of patron and item whose due day was set by a renewal of all."""
        return {(it[0], item) for item, it in self.loans.items() if it[3]}

    # ------------------------------------------------------------ a message: done, and told as done

    def respond(self, line, text):
        """Does what a request asks, if this server does it, and tells it."""
        asked = Message(text)
        self.refusing -= 1
        if self.random.random() < 0.02:
            return self.random.choice(("96AZFEF6", "96"))
        if -15 < self.refusing < 0:
            return self.refuse(asked)
        return getattr(self, f"on_{asked.kind}")(line, asked)

    def refuse(self, asked):
        """What it says while its database is away: nothing is done."""
        if asked.kind in ("01", "25"):
            return "96AZFEF6"
        if asked.kind == "65":
            return self.all_told(asked, 0, [], self.of(asked.patron))
        ids = f"AO|AA{asked.patron}|AB{asked.item}|"
        return f"{REFUSED[asked.kind]}{asked.date}{ids}AFSystem unavailable|"

    def of(self, patron):
        """What is on loan to a patron, the oldest loan first."""
        return [item for item, it in self.loans.items() if it[0] == patron]

    def due(self, patron, item, today):
        """The period of the media type and the class; only Sundays are closed."""
        days = self.terms[self.things[item][1]]["days"] + self.period[self.cards[patron]["group"]]
        due = today + datetime.timedelta(days=days)
        return due + datetime.timedelta(days=due.weekday() == 6)

    def cost(self, patron, item):
        times = self.price[self.cards[patron]["group"]] if self.tells_rentals else 1
        return self.terms[self.things[item][1]]["rental"] * times

    def owe(self, line, patron, kind, amount):
        count = sum(it[0].startswith(f"R{line}-") for it in self.owing[patron])
        self.owing[patron].append([f"R{line}-{count}", kind, amount, 0])

    def loan_told(self, asked, is_done, is_renewal, due, cost):
        """The response to a checkout or a renewal; the rental is told, 0 too, or never."""
        kind = {"11": "12", "29": "30"}[asked.kind]
        text = f"{kind}{'01'[is_done]}{'NY'[is_renewal]}U{'NY'[is_done]}{asked.date}AO|"
        text += f"AA{asked.patron}|AB{asked.item}|AJ|AH{self.day_told(due) if due else ''}|"
        if cost is not None and self.tells_rentals:
            text += f"BT06|BHUSD|BV{money(cost)}|"
        return text

    def day_told(self, due):
        return f"{due:{self.terms['form']}}"

    # ------------------------------------------------------------ loans

    def known(self, asked):
        return asked.patron in self.cards and asked.item in self.things

    def is_free(self, asked, is_forced):
        """Whether nobody but the asker waits for the title or the item, or nobody asks for that."""
        first = self.queues[asked.item][:1]
        is_first = not first or first[0][0] == asked.patron
        return is_forced or self.things[asked.item][0] not in self.wanted_titles and is_first

    def charge(self, line, asked, is_forced, is_free):
        """Charges a loan; returns whether it may be made, and the price that is told."""
        cost = self.cost(asked.patron, asked.item)
        if is_free:
            return True, 0
        if not cost or asked.has("BO") or is_forced and self.tells_rentals:
            if cost:
                self.owe(line, asked.patron, "06", cost)
            return True, cost
        return is_forced, 0 if is_forced else cost

    def on_11(self, line, asked):
        is_forced = asked.flags[1] == "Y" or asked.has("BI")
        loan = self.loans.get(asked.item)
        if not self.known(asked) or self.cards[asked.patron]["blocked"] and not is_forced:
            return self.loan_told(asked, False, False, None, None)
        is_own = loan is not None and loan[0] == asked.patron
        if is_own and asked.flags[0] == "Y":
            return self.renew(line, asked, is_forced, asked.has("BI"))
        is_full = len(self.of(asked.patron)) >= self.most[self.cards[asked.patron]["group"]]
        # (what is lent to another is lent anew at one in three)
        is_kept = loan is not None and (is_own or self.random.random() < 0.66)
        if not is_forced and (is_kept or is_full or not self.is_free(asked, is_forced)):
            return self.loan_told(asked, False, False, None, None)
        may, cost = self.charge(line, asked, is_forced, asked.has("BI"))
        if not may:
            return self.loan_told(asked, False, False, None, cost)
        self.loans.pop(asked.item, None)
        due = is_forced and asked.second_day() or self.due(asked.patron, asked.item, asked.today)
        self.loans[asked.item] = [asked.patron, due, 0, False]
        self.queues[asked.item] = [it for it in self.queues[asked.item] if it[0] != asked.patron]
        return self.loan_told(asked, True, False, due, cost)

    def renew(self, line, asked, is_forced, is_free):
        """A renewal, however often there was one before; nobody may wait for the title or item."""
        loan = self.loans[asked.item]
        is_wanted = self.queues[asked.item] or self.things[asked.item][0] in self.wanted_titles
        may, cost = (
            (False, None)
            if is_wanted and not is_forced
            else self.charge(line, asked, is_forced, is_free)
        )
        if not may:
            return self.loan_told(asked, False, False, None, cost)
        due = is_forced and asked.second_day() or self.due(asked.patron, asked.item, asked.today)
        loan[1:] = due, loan[2] + 1, False
        return self.loan_told(asked, True, True, due, cost)

    def on_29(self, line, asked):
        loan = self.loans.get(asked.item)
        if not self.known(asked) or loan is None:
            return self.loan_told(asked, False, False, None, None)
        if loan[0] != asked.patron and asked.flags[0] != "Y":
            return self.loan_told(asked, False, False, None, None)
        return self.renew(line, asked, asked.flags[1] == "Y", False)

    def on_65(self, line, asked):
        done, left = [], []
        for item in self.of(asked.patron):
            rental = self.terms[self.things[item][1]]["rental"]
            is_wanted = self.queues[item] or self.things[item][0] in self.wanted_titles
            if is_wanted or rental and not asked.has("BO"):
                left.append(item)
                continue
            loan = self.loans[item]
            loan[1:] = self.due(asked.patron, item, asked.today), loan[2] + 1, True
            if rental:
                self.owe(line, asked.patron, "06", rental)
            done.append(item)
        return self.all_told(asked, int(asked.patron in self.cards), done, left)

    def all_told(self, asked, ok, done, left):
        names = "".join(f"BM{id}|" for id in done) + "".join(f"BN{id}|" for id in left)
        return f"66{ok}{len(done):04}{len(left):04}{asked.date}AO|{names}"

    def on_09(self, line, asked):
        """A checkin; one in two of what isn't lent is told as refused, with its place."""
        thing, loan = self.things.get(asked.item), self.loans.pop(asked.item, None)
        if thing is None:
            return f"100NUN{asked.date}AO|AB{asked.item}|AQ|"
        if loan is not None:
            late = ((asked.second_day() or asked.today) - loan[1]).days
            terms = self.terms[thing[1]]
            fee = min(terms["cap"], terms["late"] * max(late, 0))
            if fee and not asked.has("BI"):
                self.owe(line, loan[0], "04", fee)
        ok = loan is not None or not thing[2] or self.random.random() < 0.5
        alert = bool(self.queues[asked.item]) or thing[0] in self.wanted_titles
        return f"10{'01'[ok]}{'NY'[ok]}U{'NY'[alert]}{asked.date}AO|AB{asked.item}|AQ{thing[2]}|"

    # ------------------------------------------------------------ the rest

    def on_15(self, _line, asked):
        mode, queue, pickup = (
            asked.flags,
            self.queues.get(asked.item, []),
            asked.fields.get("BS", ""),
        )
        places = [place for place, it in enumerate(queue) if it[0] == asked.patron]
        is_own = self.loans.get(asked.item, [None])[0] == asked.patron
        # (it takes no fourth hold, and holds of blocked cards)
        done = self.known(asked) and (
            bool(places) if mode != "+" else not places and not is_own and len(queue) < 3
        )
        if done and mode == "+":
            queue.append((asked.patron, pickup))
        elif done and mode == "-":
            del queue[places[0]]
        elif done:
            queue[places[0]] = (asked.patron, pickup)
        is_there = (
            done and mode != "-" and queue[0][0] == asked.patron and asked.item not in self.loans
        )
        return f"16{'01'[done]}{'NY'[is_there]}{asked.date}AO|AA{asked.patron}|AB{asked.item}|"

    def on_19(self, _line, asked):
        """Properties; those of what is on loan aren't stored."""
        done = asked.item in self.things and asked.item not in self.loans
        if done:
            self.things[asked.item][3] = asked.fields.get("CH", self.things[asked.item][3])
        return f"20{'N1'[done]}{asked.date}AB{asked.item}|"

    def on_37(self, _line, asked):
        """A payment of the fee that is named, else of the oldest ones, if something is owed."""
        fees, left = self.owing.get(asked.patron, []), cents(asked.fields["BV"])
        done = bool(fees) and asked.rest[4:7] == "USD" and left > 0
        named = [fee for fee in fees if fee[0] == asked.fields.get("CG")]
        for fee in (named or list(fees)) if done else ():
            part = min(left, fee[2] - fee[3])
            fee[3], left = fee[3] + part, left - part
            if fee[3] == fee[2]:
                fees.remove(fee)
                self.settled.append((fee[0], asked.patron, fee[1], money(fee[2])))
        return f"38{'NY'[done]}{asked.date}AO|AA{asked.patron}|"

    def on_01(self, _line, asked):
        return self.card(asked, "24", True)

    def on_25(self, _line, asked):
        return self.card(asked, "26", False)

    def card(self, asked, kind, blocked):
        """A block or an enable; its status looks at nothing but the block."""
        there = asked.patron in self.cards
        if there:
            self.cards[asked.patron]["blocked"] = blocked
        mark = "Y" if blocked or not there else " "
        status = f"{mark}{mark} {mark}{' ' * 10}"
        return f"{kind}{status}000{asked.date}AO|AA{asked.patron}|AE|BL{'NY'[there]}|"

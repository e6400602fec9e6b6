"""Made-up days of a library: its tables in the morning, and the requests that its machines and desks send.

The same seed and sizes give the same library and the same requests. model.py says what each of them is answered.
"""
import random

from model import day_text, sum_of

FIRST = ('Ada Ben Carla David Elif Farid Grace Hugo Ines Jakob Kim Lea Milan Nora Omar Paula Quirin Rosa Samir Tessa '
         'Uwe Vera Walid Xenia Yusuf Zoe').split()
LAST = ('Adler Becker Cruz Dietz Evans Fischer Garcia Haas Ivanov Jansen Keller Lopez Moreau Nowak Okafor Petit Quinn '
        'Rossi Santos Tanaka Ulrich Vogel Weber Young Zimmer').split()
ADJECTIVES = 'Quiet Long Hidden Last Blue Northern Broken Golden Small Distant Second Wild'.split()
NOUNS = 'River Garden Winter Letter Island House Road Summer Harbour Orchard Clock Forest'.split()
PROPERTIES = ('cover torn', 'stained', 'label missing', 'part missing', 'repaired', 'water damage', '')
BRANCHES = ('Main', 'East', 'Harbour')
# of each media type: its share of the items, and what a title of it says
MEDIA = (('001', 66, ''), ('005', 16, ' (film)'), ('006', 9, ' (music)'), ('002', 5, ' (magazine)'),
         ('009', 4, ' (with disc)'))
GROUPS = (('adult', 62), ('child', 28), ('staff', 4), ('guest', 6))
DESKS = ('DESK1', 'DESK2')
SELF = ('SELF1', 'SELF2', 'SELF3', 'SELF4')
RETURNS = ('RETURN1', 'RETURN2')


class Library:
    """The tables of a library in the morning of a day, as rows."""

    def __init__(self, policy, day, patrons, items, seed):
        self.random = random.Random(f'{seed} {patrons} {items}')
        self.policy, self.day = policy, day
        self.rows = {'patrons': [], 'items': [], 'loans': [], 'fees': [], 'closed': [], 'holds': []}
        groups = [(group, share) for group, share in GROUPS if group in policy.classes]
        for number in range(1, patrons + 1):
            group = self.one_of(groups)
            name = f'{self.random.choice(FIRST)} {self.random.choice(LAST)}'
            self.rows['patrons'].append((f'P{number:05}', name, group, 'NY'[self.random.random() < 0.02]))
        for number in range(1, items + 1):
            self.add_item(f'I{number:05}')
        self.lend()
        self.add_fees()

    def one_of(self, shares):
        return self.random.choices([share[0] for share in shares], [share[1] for share in shares])[0]

    def add_item(self, id):
        media = self.one_of(MEDIA)
        of = next(text for code, _, text in MEDIA if code == media)
        title = f'The {self.random.choice(ADJECTIVES)} {self.random.choice(NOUNS)}{of}'
        properties = self.random.choice(PROPERTIES) if self.random.random() < 0.04 else ''
        self.rows['items'].append((id, title, media, self.random.choice(BRANCHES), properties))

    def lend(self):
        """About a fifth of the items is on loan, some of them too long, and some lent ones are waited for."""
        loans, counts = {}, {}
        for id, _, media, _, _ in self.rows['items']:
            patron, _, group, _ = self.random.choice(self.rows['patrons'])
            if self.random.random() >= 0.2 or counts.get(patron, 0) >= self.policy.classes[group]['max_loans']:
                continue
            counts[patron] = counts.get(patron, 0) + 1
            lent = self.day - self.random.randint(1, self.policy.media[media]['days'] + 4)
            renewals = self.random.choice((0, 0, 0, 1))
            loans.setdefault(patron, []).append((patron, id, day_text(self.policy.due(lent, media)), str(renewals)))
            if self.random.random() < 0.07:
                self.wait(id, patron)
        self.rows['loans'] = [loan for patron in sorted(loans) for loan in loans[patron]]

    def wait(self, item, borrower):
        waiting = {row[0] for row in self.random.sample(self.rows['patrons'], self.random.randint(1, 3))} - {borrower}
        self.rows['holds'] += [(item, patron, self.random.choice(BRANCHES)) for patron in sorted(waiting)]

    def add_fees(self):
        for number, row in enumerate(self.random.sample(self.rows['patrons'], len(self.rows['patrons']) // 12), 1):
            amount = self.random.choice((25, 50, 75, 100, 150, 300, 450, 1000))
            kind = self.random.choice(('04', '04', '04', '06', '03', '07'))
            if self.random.random() < 0.3:
                self.rows['closed'].append((f'F{number:05}', row[0], kind, f'{amount / 100:.2f}'))
            else:
                paid = amount // 2 if self.random.random() < 0.1 else 0
                self.rows['fees'].append((f'F{number:05}', row[0], kind, f'{amount / 100:.2f}', f'{paid / 100:.2f}'))


class Day:
    """The requests of one or more days, each asked for when the ones before it have been answered."""

    VISITS = (('borrow', 30), ('bring_back', 26), ('renew', 9), ('renew_all', 9), ('pay', 8), ('reserve', 10),
              ('care', 6), ('enable', 4), ('block', 4), ('ask', 6), ('borrow_off_line', 1.5))

    def __init__(self, library, records, seed, lines, lines_a_day):
        self.random = random.Random(f'{seed} requests {lines}')
        self.records, self.policy = records, library.policy
        self.patrons, self.items = list(records.patrons), list(records.items)
        self.wanted = [id for id in self.items if records.items[id].holds]
        self.day, self.count, self.lines, self.lines_a_day = library.day, 0, lines, lines_a_day
        self.visits, self.sequences, self.again = {}, {}, []
        self.names, self.weights = zip(*self.VISITS)

    def requests(self):
        """A pair of connection and request for each line."""
        for name in (*SELF, *RETURNS, *DESKS):
            yield self.line(name, '9300CNself|COsecret|CPMain|')
        while self.count < self.lines:
            if self.again:
                yield self.line(*self.again.pop())
                continue
            connection = self.random.choice(SELF + SELF + DESKS + DESKS + RETURNS)
            text = next(self.visits.get(connection, iter(())), None)
            if text is None:
                self.visits[connection] = self.visit(connection)
            else:
                yield self.line(connection, text)

    def line(self, connection, text):
        """The request with its error detection. Now and then its sum is wrong, and it is sent again."""
        self.count += 1
        if self.count % self.lines_a_day == 0:
            self.day += 1
            while (self.day - 1) % 7 in self.policy.weekdays or self.day in self.policy.dates:
                self.day += 1
        sequence = self.sequences[connection] = (self.sequences.get(connection, -1) + 1) % 10
        text += f'AY{sequence}AZ'
        if self.random.random() < 0.002:
            self.again.append((connection, text[:-5]))
            return connection, text + '0000'
        return connection, text + f'{sum_of(text):04X}'

    def date(self):
        """The time of the next line: the library is open from 9 to 19."""
        seconds = 9 * 3600 + 36000 * (self.count % self.lines_a_day) // self.lines_a_day
        return f'{day_text(self.day)}    {seconds // 3600:02}{seconds // 60 % 60:02}{seconds % 60:02}'

    # ------------------------------------------------------------ visits: each gives requests until it is over

    def visit(self, connection):
        if connection in RETURNS:
            return self.bring_back(connection)
        name = self.random.choices(self.names, self.weights)[0]
        if connection in SELF and name in ('care', 'enable', 'block'):
            name = 'borrow'
        return getattr(self, name)(connection)

    def patron(self):
        return self.random.choice(self.patrons)

    def borrower(self):
        """A patron that has something on loan, if one is met soon."""
        for _ in range(50):
            id = self.patron()
            if self.records.patrons[id].loans:
                return id
        return self.patron()

    def item(self, lent):
        """An item that is on loan, or on its shelf."""
        for _ in range(50):
            id = self.random.choice(self.items)
            if (self.records.items[id].borrower is not None) == lent:
                return id
        return self.random.choice(self.items)

    def wanted_item(self, lent):
        """An item that a patron waits for, on loan or on its shelf, or None where none is met soon."""
        for _ in range(20 if self.wanted else 0):
            id = self.random.choice(self.wanted)
            item = self.records.items[id]
            if item.holds and (item.borrower is not None) == lent:
                return id
        return None

    def hello(self, patron):
        yield f'63000{self.date()}          AORIVERSIDE|AA{patron}|'

    def bye(self, patron):
        yield f'35{self.date()}AORIVERSIDE|AA{patron}|'

    def borrow(self, connection):
        patron, kept = 'P99999' if self.random.random() < 0.01 else self.patron(), None
        if self.random.random() < 0.15:
            kept = self.wanted_item(False)
            patron = self.records.items[kept].holds[0][0] if kept else patron
        yield from self.hello(patron)
        for _ in range(self.random.randint(1, 5)):
            item = 'I99999' if self.random.random() < 0.01 else self.item(self.random.random() < 0.04)
            item, kept = kept or item, None
            again = 'N' if connection in DESKS else 'Y'
            text = f'{again}N{self.date()}{" " * 18}AORIVERSIDE|AA{patron}|AB{item}|AC|'
            yield f'11{text}'
            rental = item in self.records.items and self.policy.media[self.records.items[item].media]['rental']
            if rental and self.records.items[item].borrower is None and self.random.random() < 0.7:
                yield f'11{again}N{self.date()}{" " * 18}AORIVERSIDE|AA{patron}|AB{item}|AC|BOY|'
        if self.random.random() < 0.4:
            yield from self.bye(patron)

    def borrow_off_line(self, _connection):
        """What a machine lent while the server was away: it mustn't be refused, and brings its own due date."""
        patron, due = self.patron(), f'{day_text(self.policy.due(self.day, "001"))}    235900'
        for _ in range(self.random.randint(1, 3)):
            yield f'11NY{self.date()}{due}AORIVERSIDE|AA{patron}|AB{self.item(False)}|AC|'

    def bring_back(self, connection):
        for _ in range(self.random.randint(1, 4)):
            item = self.item(self.random.random() < 0.97)
            cancel = 'BIY|' if connection in DESKS and self.random.random() < 0.05 else ''
            yield f'09N{self.date()}{self.date()}APMain|AORIVERSIDE|AB{item}|AC|{cancel}'

    def renew(self, _connection):
        patron = self.borrower()
        for item in self.records.patrons[patron].loans[:self.random.randint(1, 3)]:
            yield f'29NN{self.date()}{" " * 18}AORIVERSIDE|AA{patron}|AB{item}|AC|BOY|'
        if self.random.random() < 0.05:
            yield f'29NN{self.date()}{" " * 18}AORIVERSIDE|AA{patron}|AJThe Long River|AC|'

    def renew_all(self, _connection):
        patron = self.borrower()
        yield from self.hello(patron)
        yield f'65{self.date()}AORIVERSIDE|AA{patron}|AC|BO{self.random.choice("NY")}|'

    def pay(self, _connection):
        for _ in range(200):
            patron = self.patron()
            if self.records.patrons[patron].fees:
                break
        owed = self.records.owed(self.records.patrons[patron])
        paid = owed if self.random.random() < 0.8 else max(owed // 2, 1)
        fees = self.records.patrons[patron].fees
        named = f'CG{self.random.choice(fees)}|' if fees and self.random.random() < 0.3 else ''
        yield f'37{self.date()}0400USDBV{paid / 100:.2f}|AORIVERSIDE|AA{patron}|AC|{named}'

    def reserve(self, _connection):
        patron, item, mode = self.patron(), self.item(self.random.random() < 0.8), '+'
        known = self.wanted_item(self.random.random() < 0.7)
        if known and self.random.random() < 0.3:
            item, patron = known, self.random.choice(self.records.items[known].holds)[0]
            mode = self.random.choice('-*')
        if mode == '+':
            self.wanted.append(item)
        pickup = '' if mode == '-' else f'BS{self.random.choice(BRANCHES)}|'
        yield f'15{mode}{self.date()}{pickup}AORIVERSIDE|AA{patron}|AB{item}|'

    def care(self, _connection):
        yield f'19{self.date()}AORIVERSIDE|AB{self.item(False)}|AC|CH{self.random.choice(PROPERTIES)}|'

    def block(self, _connection):
        patron = self.patron()
        yield f'01Y{self.date()}AORIVERSIDE|ALcard was lost|AA{patron}|AC|'
        if self.random.random() < 0.7:
            yield from self.enabled(patron)

    def enable(self, _connection):
        blocked = [id for id in self.random.sample(self.patrons, min(100, len(self.patrons)))
                   if self.records.patrons[id].blocked]
        yield from self.enabled((blocked or [self.patron()])[0])

    def enabled(self, patron):
        yield f'25{self.date()}AORIVERSIDE|AA{patron}|AC|AD|'

    def ask(self, _connection):
        """Messages that change nothing, and now and then one that was cut short."""
        kind = self.random.random()
        if kind < 0.4:
            yield '9900802.00'
        elif kind < 0.9:
            yield f'17{self.date()}AORIVERSIDE|AB{self.item(True)}|AC|'
        elif kind < 0.95:
            yield '97'
        else:
            yield f'11YN{self.date()}'

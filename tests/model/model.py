"""The rules of docs/FORMATS.md once more, in plain Python: what each request is answered and what it changes.

It was written from the rules and shares nothing with the proved program, so the two check each other. It makes the
recorded responses of made-up days (../../examples/library-day/make-day, ../../bench/run) and says what a replay of them has to give. It reads no
broken policy, table or journal. Texts are str in latin-1: one character is one byte.
"""
import csv
import datetime
import io
import os
import tomllib

TABLES = ('patrons', 'items', 'loans', 'fees', 'closed', 'holds')
HEADERS = {
    'patrons': ('id', 'name', 'class', 'blocked'),
    'items': ('id', 'title', 'media', 'location', 'properties'),
    'loans': ('patron', 'item', 'due', 'renewals'),
    'fees': ('id', 'patron', 'type', 'amount', 'paid'),
    'closed': ('id', 'patron', 'type', 'amount'),
    'holds': ('item', 'patron', 'pickup'),
    'journal': ('line', 'connection', 'request', 'response'),
    'answers': ('line', 'connection', 'response'),
    'report': ('line', 'connection', 'fields'),
    'passed': ('line', 'connection', 'why'),
}
WEEKDAYS = ('monday', 'tuesday', 'wednesday', 'thursday', 'friday', 'saturday', 'sunday')
PASSED = {'17', '23', '35', '63', '93', '97', '99'}
# of each kind: the bytes of its fixed part, where its date begins, its flags, the required fields
KINDS = {
    '01': (19, 1, (0,), ('AA',)),
    '09': (37, 1, (0,), ('AB',)),
    '11': (38, 2, (0, 1), ('AA', 'AB')),
    '15': (19, 1, (), ('AA', 'AB')),
    '19': (18, 0, (), ('AB',)),
    '25': (18, 0, (), ('AA',)),
    '29': (38, 2, (0, 1), ('AA', 'AB')),
    '37': (25, 0, (), ('AA', 'BV')),
    '65': (18, 0, (), ('AA',)),
}
MAX_RENEWALS = 4294967295
HEX = set('0123456789abcdefABCDEF')


# ---------------------------------------------------------------- texts, days, money

def sum_of(text):
    return -sum(text.encode('latin-1')) % 65536


def is_digits(text):
    return text.isascii() and text.isdigit()


def day_of(text):
    """The number of the day of eight digits, or None where there is no such day in the years 1900 to 9999."""
    if len(text) != 8 or not is_digits(text) or text < '1900':
        return None
    try:
        return datetime.date(int(text[:4]), int(text[4:6]), int(text[6:])).toordinal()
    except ValueError:
        return None


def stamp_day(stamp):
    """The day of a date of 18 bytes, or None where it isn't one."""
    clock = stamp[12:]
    if len(stamp) != 18 or not is_digits(clock) or not ('00' <= clock[:2] <= '23'):
        return None
    if clock[2:4] > '59' or clock[4:] > '59' or int(stamp[:4] if is_digits(stamp[:4]) else 0) > 9900:
        return None
    return day_of(stamp[:8])


def day_text(day):
    date = datetime.date.fromordinal(day)
    return f'{date.year:04}{date.month:02}{date.day:02}'


def amount_of(text):
    whole, point, part = text.partition('.')
    if not (1 <= len(whole) <= 9 and is_digits(whole)) or (point and not (len(part) in (1, 2) and is_digits(part))):
        return None
    return int(whole) * 100 + int(part.ljust(2, '0') if point else 0)


def amount_text(amount):
    return f'{amount // 100}.{amount % 100:02}'


def take_sum(text):
    """A message without its error detection, and the sequence digit; None where it has none."""
    tail = text[-9:]
    if len(tail) == 9 and tail[:2] == 'AY' and tail[2] in '0123456789' and tail[3:5] == 'AZ' and set(tail[5:]) <= HEX:
        return text[:-9], tail[2]
    return text, None


def fields_of(rest):
    """The first field of each identifier."""
    fields = {}
    for piece in rest.split('|'):
        if len(piece) >= 2:
            fields.setdefault(piece[:2], piece[2:])
    return fields


# ---------------------------------------------------------------- requests

class Request:
    """A request that was read: its kind, sequence digit, date and fields."""

    def __init__(self, kind, sequence, fixed, fields):
        self.kind, self.sequence, self.fixed, self.fields = kind, sequence, fixed, fields
        start = KINDS[kind][1]
        self.date = fixed[start:start + 18]
        self.day = stamp_day(self.date)
        self.patron, self.item = fields.get('AA', ''), fields.get('AB', '')

    def says(self, name):
        return self.fields.get(name) == 'Y'

    def other_day(self, start):
        """The day of a second date of the fixed part, None where it isn't a date."""
        return stamp_day(self.fixed[start:start + 18])


def read_request(text):
    """A Request, or a pair: ('passed', why) for a line without an answer, ('resend', '') for a wrong sum."""
    text = text.rstrip('\r\n')
    if len(text) > 4096:
        return 'passed', 'too_long'
    bare, sequence = take_sum(text)
    if sequence is not None and int(text[-4:], 16) != sum_of(text[:-4]):
        return 'resend', ''
    if len(bare) < 2:
        return 'passed', 'too_short'
    kind = bare[:2]
    if kind in PASSED:
        return 'passed', kind
    if kind not in KINDS:
        return 'passed', 'unknown_kind'
    width, start, flags, required = KINDS[kind]
    fixed, rest = bare[2:2 + width], bare[2 + width:]
    if len(fixed) < width:
        return 'passed', 'too_short'
    if stamp_day(fixed[start:start + 18]) is None:
        return 'passed', 'bad_date'
    if any(fixed[place] not in 'YN' for place in flags) or (kind == '15' and fixed[0] not in '+-*'):
        return 'passed', 'bad_flag'
    fields = fields_of(rest)
    if is_bad_rest(kind, rest, fields, required):
        return 'passed', 'bad_field'
    if kind in ('29', '15') and not fields.get('AB') and fields.get('AJ'):
        return 'passed', 'title'
    if any(name not in fields or (name != 'BV' and not fields[name]) for name in required):
        return 'passed', 'missing_field'
    if kind == '37' and amount_of(fields['BV']) is None:
        return 'passed', 'bad_amount'
    return Request(kind, sequence, fixed, fields)


def is_bad_rest(kind, rest, fields, required):
    if '\r' in rest or '\n' in rest or any(len(piece) == 1 for piece in rest.split('|')):
        return True
    limits = {'AA': 64 if 'AA' in required else 4096, 'AB': 64 if 'AB' in required else 4096,
              'CH': 1024 if kind == '19' else 4096, 'BS': 1024 if kind == '15' else 4096}
    return any(len(fields.get(name, '')) > most for name, most in limits.items())


# ---------------------------------------------------------------- the policy and the records

def bytes_of(text):
    """A text of the policy, which is UTF-8, with one character for each byte."""
    return text.encode('utf-8').decode('latin-1')


class Policy:
    def __init__(self, text):
        tree = tomllib.loads(text.encode('latin-1').decode('utf-8').removeprefix('\ufeff'))
        self.institution, self.currency, self.due_form = bytes_of(tree['institution']), tree['currency'], tree['due_form']
        self.weekdays = {WEEKDAYS.index(name) for name in tree.get('closed_weekdays', [])}
        self.dates = {datetime.date.fromisoformat(text).toordinal() for text in tree.get('closed_dates', [])}
        self.classes, self.media = {bytes_of(name): terms for name, terms in tree['class'].items()}, tree['media']

    def due(self, day, media):
        day += self.media[media]['days']
        while (day - 1) % 7 in self.weekdays or day in self.dates:
            day += 1
        return day

    def late_fee(self, due, back, media):
        terms = self.media[media]
        return min(terms['cap'], terms['late'] * (back - due)) if back > due else 0

    def due_text(self, day):
        text = day_text(day)
        if self.due_form == 'sip':
            return text + '    235900'
        year, month, day = text[:4], text[4:6], text[6:]
        return f'{year}-{month}-{day}' if self.due_form == 'iso' else f'{month}/{day}/{year}'


class Patron:
    def __init__(self, name, group, blocked):
        self.name, self.group, self.blocked, self.loans, self.fees = name, group, blocked, [], []


class Item:
    def __init__(self, title, media, location, properties):
        self.title, self.media, self.location, self.properties = title, media, location, properties
        self.borrower, self.due, self.renewals, self.holds = None, None, 0, []


class Fee:
    def __init__(self, patron, kind, amount, paid):
        self.patron, self.kind, self.amount, self.paid = patron, kind, amount, paid


class Terms:
    """How a loan or a renewal is made: whether it is forced, the due day that is given for it, and
    its price, if that isn't the rental."""

    def __init__(self, forced, given, price=None):
        self.forced, self.given, self.price = forced, given, price


class Records:
    """The records of a library, and what each request does to them."""

    def __init__(self, policy, tables):
        """Takes the rows of the six tables, by name, without their headers."""
        self.policy, self.patrons, self.items, self.fees = policy, {}, {}, {}
        for id, name, group, blocked in tables['patrons']:
            self.patrons[id] = Patron(name, group, blocked == 'Y')
        for id, title, media, location, properties in tables['items']:
            self.items[id] = Item(title, media, location, properties)
        for patron, id, due, renewals in tables['loans']:
            item = self.items[id]
            item.borrower, item.due, item.renewals = patron, day_of(due), int(renewals)
            self.patrons[patron].loans.append(id)
        for id, patron, kind, amount, paid in tables['fees']:
            self.fees[id] = Fee(patron, kind, amount_of(amount), amount_of(paid))
            self.patrons[patron].fees.append(id)
        for id, patron, kind, amount in tables['closed']:
            self.fees[id] = Fee(patron, kind, amount_of(amount), amount_of(amount))
        for id, patron, pickup in tables['holds']:
            self.items[id].holds.append([patron, pickup])

    def tables(self):
        """The rows of the six tables as they are written."""
        patrons, items, fees = (sorted(of.items(), key=lambda entry: entry[0].encode('latin-1'))
                                for of in (self.patrons, self.items, self.fees))
        loans = [(id, self.items[item]) + (item,) for id, patron in patrons for item in patron.loans]
        owed = [(fee, self.fees[fee]) for _, patron in patrons for fee in patron.fees]
        return {
            'patrons': [(id, it.name, it.group, 'NY'[it.blocked]) for id, it in patrons],
            'items': [(id, it.title, it.media, it.location, it.properties) for id, it in items],
            'loans': [(id, item, day_text(it.due), str(it.renewals)) for id, it, item in loans],
            'fees': [(id, it.patron, it.kind, amount_text(it.amount), amount_text(it.paid)) for id, it in owed],
            'closed': [(id, it.patron, it.kind, amount_text(it.amount)) for id, it in fees if it.paid == it.amount],
            'holds': [(id, patron, pickup) for id, it in items for patron, pickup in it.holds],
        }

    def owed(self, patron):
        return sum(self.fees[id].amount - self.fees[id].paid for id in patron.fees)

    def limits(self, patron):
        return self.policy.classes[patron.group]

    def charge(self, id, kind, amount, line, made):
        """The made-th fee of this line, last in the patron's list."""
        fee = f'R{line}-{made}'
        self.fees[fee] = Fee(id, kind, amount, 0)
        self.patrons[id].fees.append(fee)

    # ------------------------------------------------------------ the rules; each gives the answer without its end

    def answer(self, line, request):
        """Does what the request of this line asks, and gives the answer's bytes."""
        text = getattr(self, 'do_' + request.kind)(line, request)
        if request.sequence is None:
            return text
        text += f'AY{request.sequence}AZ'
        return text + f'{sum_of(text):04X}'

    def do_11(self, line, request):
        cancel = request.says('BI')
        terms = self.terms(request, request.fixed[1] == 'Y' or cancel, 0 if cancel else None)
        item, again = self.items.get(request.item), request.fixed[0] == 'Y'
        return self.loan_text('12', request, item, *self.check_out(line, request, terms, again))

    def check_out(self, line, request, terms, again):
        """Whether the loan was made, whether by a renewal, and the rental charged or refused."""
        patron, item = self.patrons.get(request.patron), self.items.get(request.item)
        if patron is None or item is None:
            return False, False, None
        if item.borrower == request.patron and again:
            ok, rental = self.renew(line, request, item, terms, False, 0)
            return ok, ok, rental
        rental = self.policy.media[item.media]['rental']
        if not terms.forced:
            limits = self.limits(patron)
            if (item.borrower is not None or (item.holds and item.holds[0][0] != request.patron) or patron.blocked
                    or len(patron.loans) >= limits['max_loans'] or self.owed(patron) > limits['max_fees']):
                return False, False, None
            if rental > 0 and not request.says('BO'):
                return False, False, rental
        if item.borrower is not None:
            self.patrons[item.borrower].loans.remove(request.item)
        for place, hold in enumerate(item.holds):
            if hold[0] == request.patron:
                del item.holds[place]
                break
        item.borrower, item.renewals = request.patron, 0
        item.due = self.due_day(request, item, terms)
        patron.loans.append(request.item)
        return True, False, self.charge_rental(line, request, item, terms, 0)

    def terms(self, request, forced, price=None):
        """The terms that a request asks for itself; its own due day counts only if it is forced."""
        return Terms(forced, request.other_day(20) if forced else None, price)

    def due_day(self, request, item, terms):
        return terms.given if terms.given is not None else self.policy.due(request.day, item.media)

    def charge_rental(self, line, request, item, terms, made):
        """Charges the price to the asker, and gives it; None where nothing was charged."""
        price = self.policy.media[item.media]['rental'] if terms.price is None else terms.price
        if price > 0:
            self.charge(request.patron, '06', price, line, made)
            return price
        return None

    def renew(self, line, request, item, terms, third, made):
        """Whether the renewal was made, and the rental that was charged or refused."""
        if item.borrower is None or (item.borrower != request.patron and not third):
            return False, None
        patron, rental = self.patrons[request.patron], self.policy.media[item.media]['rental']
        if not terms.forced:
            limits = self.limits(patron)
            if (patron.blocked or item.holds or item.renewals >= limits['max_renewals']
                    or self.owed(patron) > limits['max_fees']):
                return False, None
            if rental > 0 and not request.says('BO'):
                return False, rental
        item.due = self.due_day(request, item, terms)
        item.renewals = min(item.renewals + 1, MAX_RENEWALS)
        return True, self.charge_rental(line, request, item, terms, made)

    def do_29(self, line, request):
        item = self.items.get(request.item)
        if request.patron not in self.patrons or item is None:
            return self.loan_text('30', request, item, False, False, None)
        terms = self.terms(request, request.fixed[1] == 'Y')
        ok, rental = self.renew(line, request, item, terms, request.fixed[0] == 'Y', 0)
        return self.loan_text('30', request, item, ok, ok, rental)

    def loan_text(self, kind, request, item, ok, renewed, rental):
        policy = self.policy
        text = (f'{kind}{"01"[ok]}{"NY"[renewed]}U{"NY"[ok]}{request.date}AO{policy.institution}|AA{request.patron}|'
                f'AB{request.item}|AJ{item.title if item else ""}|AH{policy.due_text(item.due) if ok else ""}|')
        if rental is not None:
            text += f'BT06|BH{policy.currency}|BV{amount_text(rental)}|'
        return text + known_text(item)

    def do_65(self, line, request):
        patron, renewed, others, made = self.patrons.get(request.patron), [], [], 0
        for id in list(patron.loans) if patron else []:
            ok, rental = self.renew(line, request, self.items[id], Terms(False, None), False, made)
            (renewed if ok else others).append(id)
            made += ok and rental is not None
        items = ''.join(f'BM{id}|' for id in renewed) + ''.join(f'BN{id}|' for id in others)
        return (f'66{"01"[patron is not None]}{min(len(renewed), 9999):04}{min(len(others), 9999):04}{request.date}'
                f'AO{self.policy.institution}|{items}')

    def do_09(self, line, request):
        item, borrower = self.items.get(request.item), ''
        if item and item.borrower is not None:
            borrower = item.borrower
            self.patrons[borrower].loans.remove(request.item)
            back = request.other_day(19)
            late = self.policy.late_fee(item.due, request.day if back is None else back, item.media)
            if late > 0 and not request.says('BI'):
                self.charge(borrower, '04', late, line, 0)
            item.borrower, item.due, item.renewals = None, None, 0
        ok, alert = item is not None, bool(item and item.holds)
        return (f'10{"01"[ok]}{"NY"[ok]}U{"NY"[alert]}{request.date}AO{self.policy.institution}|AB{request.item}|'
                f'AQ{item.location if item else ""}|' + (f'AJ{item.title}|' if item else '')
                + (f'AA{borrower}|' if borrower else '') + known_text(item))

    def do_19(self, _line, request):
        item = self.items.get(request.item)
        if item:
            item.properties = request.fields.get('CH', item.properties)
        return (f'20{"01"[item is not None]}{request.date}AB{request.item}|' + (f'AJ{item.title}|' if item else '')
                + properties_text(item))

    def do_15(self, _line, request, forced=False):
        patron, item, mode = self.patrons.get(request.patron), self.items.get(request.item), request.fixed[0]
        queue = item.holds if item else []
        places = [place for place, hold in enumerate(queue) if hold[0] == request.patron]
        ok = patron is not None and item is not None and bool(places)
        if mode == '+':
            ok = (patron is not None and item is not None and not places
                  and (forced or not patron.blocked) and item.borrower != request.patron
                  and len(queue) < 9999)
            if ok:
                queue.append([request.patron, request.fields.get('BS', '')])
                places = [len(queue) - 1]
        elif ok and mode == '-':
            del queue[places[0]]
        elif ok:
            queue[places[0]][1] = request.fields.get('BS', '')
        text = ''
        if ok and mode != '-':
            pickup = queue[places[0]][1]
            text = f'BR{places[0] + 1}|' + (f'BS{pickup}|' if pickup else '')
        there = ok and mode != '-' and item.borrower is None and places[0] == 0
        return (f'16{"01"[ok]}{"NY"[there]}{request.date}{text}AO{self.policy.institution}|AA{request.patron}|'
                f'AB{request.item}|' + (f'AJ{item.title}|' if item else ''))

    def do_37(self, _line, request):
        patron, amount = self.patrons.get(request.patron), amount_of(request.fields['BV'])
        ok = patron is not None and request.fixed[22:25] == self.policy.currency and amount > 0
        if ok:
            named = request.fields.get('CG', '')
            for id in [named] if named in patron.fees else list(patron.fees):
                fee = self.fees[id]
                part = min(amount, fee.amount - fee.paid)
                fee.paid, amount = fee.paid + part, amount - part
                if part and fee.paid == fee.amount:
                    patron.fees.remove(id)
        return f'38{"NY"[ok]}{request.date}AO{self.policy.institution}|AA{request.patron}|'

    def do_01(self, _line, request):
        return self.patron_text('24', request, True)

    def do_25(self, _line, request):
        return self.patron_text('26', request, False)

    def patron_text(self, kind, request, blocked):
        patron, owed = self.patrons.get(request.patron), 0
        status = [True, True, False, True] + [False] * 10
        if patron:
            patron.blocked, limits, owed = blocked, self.limits(patron), self.owed(patron)
            full, owing = len(patron.loans) >= limits['max_loans'], owed > limits['max_fees']
            status[0], status[1], status[3] = full or owing or blocked, owing or blocked, blocked
            status[5], status[11] = full, owing
        text = (f'{kind}{"".join(" Y"[yes] for yes in status)}000{request.date}AO{self.policy.institution}|'
                f'AA{request.patron}|AE{patron.name if patron else ""}|BL{"NY"[patron is not None]}|')
        if patron and kind == '24':
            text += f'BH{self.policy.currency}|BV{amount_text(owed)}|'
        return text


def known_text(item):
    return f'CK{item.media}|' + properties_text(item) if item else ''


def properties_text(item):
    return f'CH{item.properties}|' if item and item.properties else ''


# ---------------------------------------------------------------- comparing

def response_of(text):
    """A response's identifier, fixed part and fields by identifier, each with all its texts."""
    fixed = {'10': 22, '12': 22, '16': 20, '20': 19, '24': 35, '26': 35, '30': 22, '38': 19, '66': 27}.get(text[:2], 0)
    fields = {}
    for piece in text[2 + fixed:].split('|'):
        if len(piece) >= 2:
            fields.setdefault(piece[:2], []).append(piece[2:])
    return (text[2:2 + fixed] if len(text) >= 2 + fixed else None), fields


def recorded_due(fields):
    text = fields.get('AH', [''])[0]
    if len(text) >= 8 and is_digits(text[:8]):
        return day_of(text[:8])
    if len(text) >= 10 and text[4] == '-' == text[7]:
        return day_of(text[:4] + text[5:7] + text[8:10])
    if len(text) >= 10 and text[2] == '/' == text[5]:
        return day_of(text[6:10] + text[:2] + text[3:5])
    return None


def is_readable(kind, fixed, fields):
    if fixed is None:
        return False
    if kind in ('10', '12', '16', '30', '66') and fixed[0] not in '10' or kind == '38' and fixed[0] not in 'YN':
        return False
    if kind == '10' and fixed[3] not in 'YN' or kind == '16' and fixed[1] not in 'YN':
        return False
    if kind == '66' and not is_digits(fixed[1:9]):
        return False
    fee = fields.get('BV', [''])[0]
    return kind not in ('12', '30') or fee == '' or amount_of(fee) is not None


def differences(answer, recorded):
    """The words by which a recorded response differs from the answer that it should have been."""
    recorded = recorded.rstrip('\r\n')
    if not recorded:
        return ['missing']
    recorded, answer = take_sum(recorded)[0], take_sum(answer)[0]
    if len(recorded) < 2:
        return ['unreadable']
    kind = answer[:2] if answer != '96AZFEF6' else '96'
    if recorded[:2] != kind:
        return ['kind']
    if kind == '96':
        return []
    (fixed, fields), (want, wanted) = response_of(recorded), response_of(answer)
    if not is_readable(kind, fixed, fields):
        return ['unreadable']
    same = {}
    if kind in ('10', '12', '16', '20', '30', '66'):
        same['ok'] = (fixed[0] == '1') == (want[0] == '1')
    if kind == '10':
        same['alert'] = fixed[3] == want[3]
    if kind == '16':
        same['available'] = fixed[1] == want[1]
    if kind in ('12', '30'):
        both = fixed[0] == want[0] == '1'
        same['due'] = not both or recorded_due(fields) == recorded_due(wanted)
        same['fee'] = (amount_of(fields.get('BV', ['0'])[0] or '0') == amount_of(wanted.get('BV', ['0'])[0] or '0'))
    if kind in ('24', '26'):
        same['status'] = all((fixed[place] == 'Y') == (want[place] == 'Y') for place in (0, 1, 5, 11))
        same['valid'] = (fields.get('BL', [''])[0] == 'Y') == (wanted.get('BL', [''])[0] == 'Y')
    if kind == '38':
        same['accepted'] = fixed[0] == want[0]
    if kind == '66':
        same['renewed'], same['unrenewed'] = fixed[1:5] == want[1:5], fixed[5:9] == want[5:9]
        same['renewed_items'] = sorted(fields.get('BM', [])) == sorted(wanted.get('BM', []))
        same['unrenewed_items'] = sorted(fields.get('BN', [])) == sorted(wanted.get('BN', []))
    return [word for word, is_same in same.items() if not is_same]


# ---------------------------------------------------------------- files

def rows_of(text):
    # (each character is a byte, so a byte order mark is three of them)
    text = text.removeprefix('\xef\xbb\xbf')
    return [row for row in csv.reader(io.StringIO(text, newline='')) if row][1:]


def quoted(field):
    """A field as it is written: in quotes where it holds a comma, a quote or a line end."""
    return '"' + field.replace('"', '""') + '"' if any(mark in field for mark in ',"\r\n') else field


def text_of(table, rows):
    return ''.join(','.join(map(quoted, row)) + '\n' for row in [HEADERS[table], *rows])


def read(path):
    with open(path, encoding='latin-1', newline='') as file:
        return file.read()


def write(path, text):
    with open(path, 'w', encoding='latin-1', newline='') as file:
        file.write(text)


def read_tables(folder):
    paths = {table: os.path.join(folder, table + '.csv') for table in TABLES}
    return {table: rows_of(read(path)) if os.path.exists(path) else [] for table, path in paths.items()}


def answer_of(records, line, request):
    """The answer to the bytes of a request, or None, and the reason where there is none."""
    request = read_request(request)
    if isinstance(request, Request):
        return records.answer(line, request), None
    return ('96AZFEF6', None) if request[0] == 'resend' else (None, request[1])


def by_rules(records, line, request, _response):
    """The answer to a line by the rules, which don't look at what was recorded."""
    return answer_of(records, line, request)


def replay(records, journal, answering=by_rules):
    """The files that a replay of the journal's rows gives, by name, and the line that is printed."""
    rows = {'answers': [], 'report': [], 'passed': []}
    for number, connection, request, response in journal:
        answer, why = answering(records, int(number), request, response)
        if answer is None:
            rows['passed'].append((number, connection, why))
            continue
        rows['answers'].append((number, connection, answer))
        words = differences(answer, response)
        if words:
            rows['report'].append((number, connection, ' '.join(words)))
    sizes = f'lines {len(journal)} answered {len(rows["answers"])} passed {len(rows["passed"])}'
    files = {name + '.csv': text_of(name, table) for name, table in {**records.tables(), **rows}.items()}
    return files, f'{sizes} differences {len(rows["report"])}\n'

"""A replay as recorded: what a readable response says was done is carried out, in plain Python.

It was written from the definition of --as-recorded, beside model.py, which has the rules, and
shares nothing with the proved program. The answers stay those of the rules; each is judged on the
records that the lines before it left.
"""

import copy
from dataclasses import dataclass

import model

# of each request the response that answers it, if that says what was done; 24 and 26 don't
RESPONSES = {"09": "10", "11": "12", "15": "16", "19": "20", "29": "30", "37": "38", "65": "66"}


# ---------------------------------------------------------------- what a response says was done


class NotTaken:
    """The message was asked for again."""


class Refused:
    """A checkout or a renewal was refused."""


@dataclass
class Said:
    """Whether a checkin, a hold, an item status or a payment was done."""

    yes: bool


@dataclass
class Lent:
    """A checkout or a renewal was made, until a day and for a fee, if these are told."""

    day: int | None
    fee: int | None
    renewal: bool


@dataclass
class Renewed:
    """Which items a renewal of all renewed."""

    names: list


def outcome_of(policy, request, recorded):
    """What the recorded response to a request says was done, or None if it says nothing of it."""
    bare = model.take_sum(recorded.rstrip("\r\n"))[0]
    if bare[:2] == "96":
        return NotTaken()
    kind = RESPONSES.get(request.kind)
    if kind is None or bare[:2] != kind:
        return None
    fixed, fields = model.response_of(bare)
    if not model.is_readable(kind, fixed, fields):
        return None
    if kind in ("12", "30"):
        return loan_of(policy, fixed, fields)
    if kind == "66":
        return renewed_of(fixed, fields)
    yes = fixed[0] == ("Y" if kind == "38" else "1")
    # a server that names the place of an item has looked at it: it says that it wasn't lent
    return None if kind == "10" and not yes and fields.get("AQ", [""])[0] else Said(yes)


def loan_of(policy, fixed, fields):
    if fixed[0] == "0":
        return Refused()
    due, fee = fields.get("AH", [""])[0], fields.get("BV", [""])[0]
    has_slashes = due[2:3] == "/" == due[5:6]
    day = None if has_slashes and policy.due_form != "us" else model.recorded_due(fields)
    return Lent(day, model.amount_of(fee) if fee else None, fixed[1] == "Y")


def renewed_of(fixed, fields):
    names = fields.get("BM", [])
    return None if fixed[0] == "1" and len(names) < int(fixed[1:5]) else Renewed(names)


def agrees(answer, outcome):
    """Whether an answer has all that the outcome says."""
    if isinstance(outcome, NotTaken):
        return False
    fixed, fields = model.response_of(model.take_sum(answer)[0])
    if isinstance(outcome, Renewed):
        return sorted(fields.get("BM", [])) == sorted(outcome.names)
    yes = fixed[0] in "1Y"
    if isinstance(outcome, Said):
        return yes == outcome.yes
    if isinstance(outcome, Refused):
        return not yes
    day, rental = model.recorded_due(fields), model.amount_of(fields.get("BV", ["0"])[0])
    return yes and outcome.day in (None, day) and rental == (outcome.fee or 0)


# ---------------------------------------------------------------- the records


class Kept:
    """The records that a request can change, as they were before it."""

    def __init__(self, records, line, request):
        self.records, self.line = records, line
        patron, item = records.patrons.get(request.patron), records.items.get(request.item)
        patrons = {request.patron, item.borrower if item else None}
        items = {request.item, *(patron.loans if patron and request.kind == "65" else ())}
        fees = patron.fees if patron and request.kind == "37" else ()
        self.patrons = {id: copy.deepcopy(records.patrons.get(id)) for id in patrons}
        self.items = {id: copy.deepcopy(records.items.get(id)) for id in items}
        self.fees = {id: copy.deepcopy(records.fees[id]) for id in fees}

    def put_back(self):
        """Takes back what the line did, its fees among it."""
        records, made = self.records, 0
        for kept, there in (
            (self.patrons, records.patrons),
            (self.items, records.items),
            (self.fees, records.fees),
        ):
            there.update((id, it) for id, it in kept.items() if it is not None)
        while records.fees.pop(f"R{self.line}-{made}", None):
            made += 1


def price(request, fee):
    """The price that was told; if none was, the rental (None) if the patron agreed to it, else
    nothing."""
    agreed = request.says("BO") and not (request.kind == "11" and request.says("BI"))
    return fee if fee is not None else None if agreed else 0


def lend(records, line, request, outcome):
    """Lends or renews as it was told, and returns whether patron and item are known."""
    item = records.items.get(request.item)
    if request.patron not in records.patrons or item is None:
        return False
    offline = request.kind == "11" and request.says("BI") or request.fixed[1] == "Y"
    day = request.other_day(20) if outcome.day is None and offline else outcome.day
    terms = model.Terms(True, day, price(request, outcome.fee))
    is_third = request.kind == "29" and request.fixed[0] == "Y"
    if is_third and item.borrower not in (None, request.patron):
        return records.renew(line, request, item, terms, True, 0)[0]
    again = request.kind == "29" or outcome.renewal
    return records.check_out(line, request, terms, again)[0]


def renew_all(records, line, request, names):
    """Renews the named items of the patron's list, and returns whether all of them are in it."""
    patron, made = records.patrons.get(request.patron), 0
    loans = list(patron.loans) if patron else []
    terms = model.Terms(True, None, price(request, None))
    for id in loans:
        if id in names:
            _, fee = records.renew(line, request, records.items[id], terms, False, made)
            made += fee is not None
    return set(names) <= set(loans)


def carry_out(records, line, request, outcome):
    """Does what an outcome says that no answer agrees with; returns whether it could be done."""
    if isinstance(outcome, Lent):
        return lend(records, line, request, outcome)
    if isinstance(outcome, Renewed):
        return renew_all(records, line, request, outcome.names)
    if isinstance(outcome, Said) and outcome.yes:
        # where the rules refuse a checkin, an item status or a payment, there is nothing to write
        return request.kind == "15" and records.do_15(line, request, forced=True)[2] == "1"
    return True


def judge(records, line, request, recorded):
    """The rules' answer to a request, and what is carried out in its place: an outcome that it
    doesn't agree with, else None. The records stay."""
    outcome = outcome_of(records.policy, request, recorded)
    kept = Kept(records, line, request)
    answer = records.answer(line, request)
    kept.put_back()
    return answer, None if outcome is None or agrees(answer, outcome) else outcome


def come_of(records, line, request, recorded):
    """Does what the response to a request says was done, else what the rules say. Returns the
    rules' answer, and what came of the line: 'ruled', 'told' or 'not'."""
    answer, outcome = judge(records, line, request, recorded)
    if outcome is None:
        return records.answer(line, request), "ruled"
    return answer, "told" if carry_out(records, line, request, outcome) else "not"


def answer_of(records, line, text, recorded):
    """The answer to the bytes of a request, or None, and the reason where there is none."""
    request = model.read_request(text)
    if isinstance(request, model.Request):
        return come_of(records, line, request, recorded)[0], None
    return model.answer_of(records, line, text)

"""Writes logs by chance in each form that sip_journal knows, and in some of its own: clients side
by side, torn lines, lines twice, messages that are missing."""
import datetime
import json

import talks

BEGIN = datetime.datetime(2026, 3, 7, 9, 2, 10, 120000)


def syslog(moment):
    return f"{moment:%b} {moment.day:2} {moment:%H:%M:%S} sip1".encode()


def clock(moment, mark="."):
    return f"{moment:%H:%M:%S}{mark}{moment.microsecond // 1000:03}".encode()


def day(moment):
    return f"{moment:%Y-%m-%d}".encode()


def quoted(is_request, text):
    return b"%s MSG: '%s'" % (b"INPUT" if is_request else b"OUTPUT", text)


def koha_log4perl(moment, name, is_request, text):
    head = f"[{moment:%Y/%m/%d %H:%M:%S}] [DEBUG] ".encode() + name
    return head + b": " + quoted(is_request, text) + b" C4::SIP::Trapper::PRINT (18)"


def koha_syslog(moment, name, is_request, text):
    return b"%s koha_sip[%s]: %s" % (syslog(moment), name, quoted(is_request, text))


def evergreen(moment, name, is_request, text):
    head = f"{moment:%Y-%m-%dT%H:%M:%S}-05:00".encode()
    return b"%s brick1 SIPServer[%s]: [INFO] %s" % (head, name, quoted(is_request, text))


def rsyslog(moment, name, is_request, text):
    side = b"recv" if is_request else b"sent"
    return b"%s server[%s]: %s: %s#015" % (syslog(moment), name, side, text)


def mediator(moment, name, is_request, text):
    side = b">>>" if is_request else b"<<<"
    at = day(moment) + b" " + clock(moment, ",")
    return b"%s INFO mediator: %s %s %s<CR>" % (at, name, side, text)


def journald(moment, name, is_request, text):
    message = quoted(is_request, text)
    micros = int(moment.replace(tzinfo=datetime.timezone.utc).timestamp() * 1_000_000)
    entry = {
        "__REALTIME_TIMESTAMP": str(micros),
        "_HOSTNAME": "sip1",
        "PRIORITY": "7",
        "SYSLOG_IDENTIFIER": "koha_sip",
        "_PID": name.decode(),
        # (a message that isn't all printable comes as a list of its bytes)
        "MESSAGE": message.decode() if message.isascii() else list(message),
    }
    return json.dumps(entry).encode()


def two_line(moment, name, is_request, text):
    side = b"received" if is_request else b"sent"
    return b"%sT%s %s %s\n%s" % (day(moment), clock(moment), name, side, text)


def arrows(moment, name, is_request, text):
    spelled = text.replace(b"\\", b"\\\\").replace(b"\xc5", b"\\xc5")
    mark = b"<-" if is_request else b"->"
    return b"%sT%s %s %s %s" % (day(moment), clock(moment), name, mark, spelled)


def input_output(moment, name, is_request, text):
    return b"%s sip[%s]: %s" % (syslog(moment), name, quoted(is_request, text))


def received_sent(moment, name, is_request, text):
    side = b"received" if is_request else b"sent"
    return b"%s [%s] %s: %s<CR>" % (clock(moment), name, side, text)


def digits(moment, name, is_request, text):
    side = b"RX" if is_request else b"TX"
    return b"%s %s %s %s" % (clock(moment), name, side, text.hex().encode())


def client(moment, name, is_request, text):
    side = b"SEND" if is_request else b"RECV"
    return b"%s|session=%s|%s: %s" % (clock(moment), name, side, text)


def numbers(dice):
    return b"%d" % dice.randint(1, 99999)


def addresses(dice):
    return b"10.0.%d.%d:%d" % (dice.randrange(256), dice.randrange(256), dice.randint(1024, 65535))


def names(dice):
    return dice.choice((b"DESK", b"SELF-", b"r\xe9turn", b"x" * 62)) + b"%d" % dice.randint(1, 99)


def accounts(dice):
    return b"desk%d@10.0.0.%d" % (dice.randint(1, 99), dice.randrange(256))


# Of each form: how it writes a message, the names that it has, and the words that read it
FORMS = {
    "koha-log4perl": (koha_log4perl, accounts, ()),
    "koha-syslog": (koha_syslog, numbers, ()),
    "evergreen": (evergreen, numbers, ()),
    "rsyslog": (rsyslog, numbers, ()),
    "mediator": (mediator, addresses, ()),
    "journald": (journald, numbers, ()),
    "two-line": (two_line, names, ()),
    "pair": (None, names, ()),
    "arrows": (arrows, names, ()),
    "input-output": (input_output, numbers, ()),
    "received-sent": (received_sent, addresses, ()),
    "digits": (
        digits,
        names,
        ("--request", r"^\S+ \S+ RX (.*)$", "--response", r"^\S+ \S+ TX (.*)$",
         "--connection", r"^\S+ (\S+) ", "--escapes", "hexadecimal"),
    ),
    "client": (
        client,
        numbers,
        ("--request", r"^[^|]*\|[^|]*\|SEND: (.*)$", "--response", r"^[^|]*\|[^|]*\|RECV: (.*)$",
         "--connection", r"session=(\d+)"),
    ),
    "one client": (
        client, lambda dice: b"1", ("--request", r"SEND: (.*)$", "--response", r"RECV: (.*)$")
    ),
}  # fmt: skip
# whose lines have times of which no two need to be the same
EXACT = ("mediator", "journald", "two-line", "arrows", "received-sent", "digits", "client")
OTHERS = (b"", b"server starts", b"2026-03-07 09:02:10 INFO idle", b"{}", b"INPUT", b"?\xff\xfe")


def said(dice, clients, oddness):
    """What is said, in its order: the client's number, whether it asks, and the message. Each
    client waits for its response, but for odd ones."""
    waiting = []
    for number in range(clients):
        talk, at = talks.Client(dice, oddness), dice.random() * 5
        for request, response in talk.exchanges(dice.randint(1, 16)):
            waiting.append((at, number, True, request))
            if response:
                late = 8 if talk.is_odd() else 0
                waiting.append((at + 0.2 + late, number, False, response))
            at += 0.3 + 3 * dice.random()
    return [it[1:] for it in sorted(waiting, key=lambda it: it[:3])]


def paired(dice, clients, oddness):
    """Exchanges, in their order: the client's number, the request and the response."""
    of_each = [
        [(number, *it) for it in talks.Client(dice, oddness).exchanges(dice.randint(1, 16))]
        for number in range(clients)
    ]
    out = []
    while any(of_each):
        out.append(dice.choice([it for it in of_each if it]).pop(0))
    return out


def is_flat(text):
    return b"\n" not in text and b"\r" not in text


def lines(dice, form, oddness, least=0):
    """The lines of a log with their line ends; between two are at least so many milliseconds."""
    write, make_name, _ = FORMS[form]
    clients = 1 if form == "one client" else dice.randint(1, 6)
    called = [make_name(dice) for _ in range(clients)]
    if dice.randrange(60) == 0 and form in ("arrows", "two-line"):
        called[0] = b"x" * dice.randint(64, 66)
    moment, out = BEGIN, []
    for number, *what in (paired if form == "pair" else said)(dice, clients, oddness):
        moment += datetime.timedelta(milliseconds=dice.randint(least, 3000))
        if dice.randrange(300) == 0 and oddness:
            moment += datetime.timedelta(seconds=dice.choice((-200, 400, -70, -50, 40000)))
        if form == "pair":
            at = day(moment) + b"T" + clock(moment)
            line = b"%s %s [%s] => [%s]" % (at, called[number], *what)
        else:
            line = write(moment, called[number], *what)
        if dice.randrange(40) == 0 and (oddness or not least):
            out.append(dice.choice(OTHERS) + (b"" if form == "pair" else dice.choice((b"", b"\n"))))
        out += damaged(dice, line) if dice.random() < oddness / 2 else [line + b"\n"]
    return out


def damaged(dice, line):
    """A line that is torn, so that the next one follows in it, or lost, or there twice."""
    cut = line[: dice.randrange(len(line))]
    return dice.choice(([cut], [cut + b"\n"], [], [line + b"\n"] * 2, [b"\n", line + b"\n"]))


def merged(dice, form):
    """The lines of a log, without damage, in two logs whose times are those of one."""
    whole, held = [[], []], 0
    for line in lines(dice, form, 0, 1):
        held = dice.randrange(2) if dice.randrange(3) == 0 else held
        whole[held].append(line)
    return [b"".join(it) for it in whole if it]


def make(dice):
    """Logs and what reads them: the form, the logs, as bytes, the words, and options."""
    form = dice.choice(tuple(FORMS))
    options = {
        "--force": dice.randrange(2) == 0,
        "--drop-repeated": dice.randrange(4) == 0,
        "--first": dice.randint(1, 10**9) if dice.randrange(4) == 0 else None,
        "--merge": form in EXACT and dice.randrange(3) == 0,
    }
    words = list(FORMS[form][2]) or ["--preset", form]
    if options["--merge"]:
        return form, merged(dice, form), words, options
    text = b"".join(lines(dice, form, dice.choice((0, 0, 0.01, 0.03, 0.05, 0.1, 0.3))))
    if dice.randrange(6) == 0 and form != "journald":
        text = text.replace(b"\n", b"\r\n")
    if dice.randrange(4) == 0:
        text = text.removesuffix(b"\n")
    at = dice.randrange(len(text) + 1) if dice.randrange(3) == 0 else len(text)
    at = text.rfind(b"\n", 0, at) + 1 if at < len(text) else at
    logs = [it for it in (text[:at], text[at:]) if it] or [b""]
    return form, logs, words, options

"""Messages of SIP 2.00, as docs/FORMATS.md and docs/MAKE-A-JOURNAL.md have them: which side an
identifier is of, error detection, what is odd, and which response fits which request."""
import re

# The identifiers of requests, and of the responses to them
ANSWERS = {
    b"01": b"24",
    b"09": b"10",
    b"11": b"12",
    b"15": b"16",
    b"17": b"18",
    b"19": b"20",
    b"23": b"24",
    b"25": b"26",
    b"29": b"30",
    b"35": b"36",
    b"37": b"38",
    b"63": b"64",
    b"65": b"66",
    b"93": b"94",
    b"99": b"98",
}
# Each side asks by one of these that the other's last message is sent again
RESEND_RESPONSE, RESEND_REQUEST = b"97", b"96"
IDENTIFIERS = {
    "request": {*ANSWERS, RESEND_RESPONSE},
    "response": {*ANSWERS.values(), RESEND_REQUEST},
}
DETECTION = re.compile(rb"AY([0-9])AZ([0-9A-Fa-f]{4})")


def sum_of(text):
    return -sum(text) % 65536


def summed(text, digit):
    """A message with error detection."""
    text += b"AY%dAZ" % digit
    return text + b"%04X" % sum_of(text)


def trimmed(message):
    return message.rstrip(b"\r\n")


def detection(message):
    """The sequence digit of a message that ends in error detection, and whether its checksum is
    right; else nothing."""
    text = trimmed(message)
    found = DETECTION.fullmatch(text[-9:])
    return found and (found[1], int(found[2], 16) == sum_of(text[:-4]))


def has_right_sum(message):
    found = detection(message)
    return bool(found and found[1])


def odd(side, message):
    """What is odd about a message, but for a missing checksum, as the last line counts it."""
    if message[:2] not in IDENTIFIERS[side]:
        return "unknown"
    found = detection(message)
    if found and not found[1] or DETECTION.search(trimmed(message)[:-1]):
        return "wrong-checksum"
    return None


def fits(request, response):
    """Whether a response is one to a request: of its kind and, if both have one, of its digit."""
    if response[:2] == RESEND_REQUEST:
        return True
    asked, said = detection(request), detection(response)
    if asked and said and asked[0] != said[0]:
        return False
    if request[:2] == RESEND_RESPONSE:
        return response[:2].isdigit()
    return ANSWERS.get(request[:2]) == response[:2]


def is_again(before, now):
    """Whether the second of two exchanges that follow each other is the first, sent again."""
    (request, response), (asked, said) = before, now
    return request == asked and detection(asked) is not None and (
        response == said or not response or not said
    )

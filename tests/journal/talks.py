"""What clients and a server say to each other, by chance: exchanges of messages of SIP2, some of
them odd, sent again, unanswered or answered by another kind."""
import messages

WORDS = (
    b"Main", b"Ann Reader", b"O'Neil", b'He said "no"', b"Oslo, Deichman", b"\xc5se", b"100%",
    b"a\\b", b"#015", b"<CR>", b"x" * 60, b"", b"[1] => [2]", b"AY", b"09:02:10", b"<- 2300", b"=",
)  # fmt: skip
SHARES = {"always": 1, "never": 0, "some": 0.5, "few": 0.08, "most": 0.9}


def body(dice):
    moment = b"2026030%d    %02d%02d%02d" % (
        dice.randint(1, 9), dice.randint(0, 23), dice.randint(0, 59), dice.randint(0, 59),
    )  # fmt: skip
    fields = [
        dice.choice((b"AO", b"AA", b"AB", b"AJ", b"AF")) + dice.choice(WORDS)
        for _ in range(dice.randint(1, 5))
    ]
    return moment + b"|".join(fields) + b"|"


class Client:
    """One who asks: whether its messages have checksums, how often it is odd, and which digit is
    next."""

    def __init__(self, dice, oddness):
        self.dice, self.oddness = dice, oddness
        self.share = SHARES[dice.choice(tuple(SHARES))]
        self.digit = dice.randrange(10)

    def is_odd(self):
        return self.dice.random() < self.oddness

    def spelled(self, text, digit):
        """A message with or without error detection; an odd one is damaged."""
        dice = self.dice
        if self.dice.random() < self.share:
            text = messages.summed(text, digit)
            if dice.randrange(8) == 0:
                text = text[:-4] + text[-4:].lower()
        if not self.is_odd():
            return text
        at = dice.randrange(len(text))
        return dice.choice(
            (
                text[:at],
                text[:at] + bytes([text[at] ^ 1]) + text[at + 1 :],
                text + b"|more",
                text + text,
                dice.choice((b"", b"2", b"88", b"GET / HTTP/1.1", b"10", b"23")) + text[2:],
                b"hello",
            )
        )

    def exchange(self):
        """A request, and its response or nothing."""
        dice = self.dice
        if dice.randrange(30) == 0:
            asks, text = messages.RESEND_RESPONSE, b""
        else:
            asks, text = dice.choice(tuple(messages.ANSWERS)), body(dice)
        says = messages.ANSWERS.get(asks) or dice.choice(tuple(messages.ANSWERS.values()))
        self.digit = (self.digit + 1) % 10
        digit = self.digit
        if self.is_odd():
            says = dice.choice(tuple(messages.ANSWERS.values()))
        if self.is_odd():
            digit = dice.randrange(10)
        # (nearly always without a checksum, as the standard has it)
        is_bare = asks == messages.RESEND_RESPONSE and dice.randrange(20)
        request = asks if is_bare else self.spelled(asks + text, self.digit)
        if dice.randrange(40) == 0:
            return request, messages.RESEND_REQUEST + b"AZFEF6"
        return request, b"" if self.is_odd() else self.spelled(says + body(dice), digit)

    def exchanges(self, count):
        """This number of exchanges, of which some are sent again."""
        out = []
        while len(out) < count:
            one = self.exchange()
            out.append(one)
            while self.is_odd() and len(out) < count:
                response = self.dice.choice((one[1], b"", self.spelled(b"24" + body(self.dice), 1)))
                out.append((one[0], response))
        return out

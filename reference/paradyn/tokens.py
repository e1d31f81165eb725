"""Tokens of configurations and directives. All texts are bytes."""

LETTERS = b"abcdefghijklmnopqrstuvwxyzABCDEFGHIJKLMNOPQRSTUVWXYZ"
NAME_FIRST = frozenset(LETTERS + b"_")
NAME_REST = frozenset(LETTERS + b"_.0123456789")
DIGITS = frozenset(b"0123456789")
WHITE = frozenset(b" \t\r\n")
WORDS = [b"$focus", b"$all", b"$metric", b"$value", b"$arg"]
SIGNS = [b"(*", b"*)", b"++", b"--", b"==", b"!=", b"<=", b">=",
         b"{", b"}", b"[", b"]", b"(", b")", b";", b",", b"=", b"<", b">"]
FOCUS_BYTES = frozenset(range(256)) - WHITE - frozenset(b";{")
NUMBER_MOST = 2147483647


class ParseFault(Exception):
    """The first fault of a text: its kind, and where it stands."""

    def __init__(self, line, col, kind):
        super().__init__(line, col, kind)
        self.line, self.col, self.kind = line, col, kind


class LexFault(Exception):
    """No token begins at a place, or its string or number is bad."""

    def __init__(self, kind, place, line, col):
        super().__init__(kind, place)
        self.kind, self.place, self.line, self.col = kind, place, line, col


BAD_BYTE, OPEN_STRING, BIG_NUMBER = "bad byte", "open string", "number too large"
UNEXPECTED, TOO_DEEP, TOO_LONG = "unexpected", "nesting too deep", "too long"
UNKNOWN_NAME, TWICE_NAMED, WRONG_KIND = "unknown name", "named twice", "wrong kind"
CYCLIC_PARENT, BAD_FOCUS = "cyclic parent", "bad focus"


class Token:
    """A word of a text, and where it stands."""

    __slots__ = ("kind", "text", "from_", "to", "line", "col")

    def __init__(self, kind, text, from_, to, line, col):
        self.kind, self.text, self.from_, self.to = kind, text, from_, to
        self.line, self.col = line, col

    def __repr__(self):
        return f"{self.kind}:{self.text!r}@{self.line}:{self.col}"


class Scanner:
    """next() gives a token, None at the end, or raises LexFault, again and again."""

    def __init__(self, text):
        self.text = bytes(text)
        self.at = 0
        self.line, self.line_start = 1, 0
        self.fault = None

    def _skip(self):
        t = self.text
        while self.at < len(t):
            b = t[self.at]
            if b == 10:
                self.at += 1
                self.line += 1
                self.line_start = self.at
            elif b in WHITE:
                self.at += 1
            elif t[self.at:self.at + 2] == b"//":
                while self.at < len(t) and t[self.at] != 10:
                    self.at += 1
            else:
                return

    def place(self):
        """Line and column of the present position."""
        return self.line, self.at - self.line_start + 1

    def _fail(self, kind):
        self.fault = LexFault(kind, self.at, *self.place())
        raise self.fault

    def _run(self, bytes_):
        """The end of the longest run of these bytes from the present position on."""
        end = self.at
        while end < len(self.text) and self.text[end] in bytes_:
            end += 1
        return end

    def next(self):
        if self.fault:
            raise self.fault
        self._skip()
        if self.at >= len(self.text):
            return None
        at = self.at
        line, col = self.place()
        kind, end = self._kind_and_end()
        self.at = end
        return Token(kind, self.text[at:end], at, end, line, col)

    def _kind_and_end(self):
        t, at = self.text, self.at
        b = t[at]
        if b in NAME_FIRST:
            return "NAME", self._run(NAME_REST)
        if b in DIGITS:
            end = self._run(DIGITS)
            digits = t[at:end].lstrip(b"0")
            if len(digits) > 10 or int(digits or b"0") > NUMBER_MOST:
                self._fail(BIG_NUMBER)
            return "NUMBER", end
        if b == 0x22:
            return "STRING", self._string_end()
        if b == 0x2F and at + 1 < len(t) and t[at + 1] in LETTERS:
            return "FOCUS", self._run(FOCUS_BYTES)
        for kind, words in (("WORD", WORDS), ("SIGN", SIGNS)):
            for w in words:
                if t.startswith(w, at):
                    return kind, at + len(w)
        return self._fail(BAD_BYTE)

    def _string_end(self):
        t, end = self.text, self.at + 1
        while end < len(t) and t[end] not in (0x22, 10):
            end += 1
        if end >= len(t) or t[end] == 10:
            self._fail(OPEN_STRING)
        return end + 1

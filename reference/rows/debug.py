"""How the test programs print values of their language."""

SIGNS = {b"{": "OpenBrace", b"}": "CloseBrace", b"[": "OpenBracket", b"]": "CloseBracket", b"(": "OpenParen",
         b")": "CloseParen", b"(*": "OpenCode", b"*)": "CloseCode", b";": "Semicolon", b",": "Comma", b"++": "PlusPlus",
         b"--": "MinusMinus", b"=": "Assign", b"==": "Equal", b"!=": "NotEqual", b"<": "Less", b"<=": "LessEqual",
         b">": "Greater", b">=": "GreaterEqual"}
WORDS = {b"$focus": "FocusWord", b"$all": "AllWord", b"$metric": "MetricWord", b"$value": "ValueWord",
         b"$arg": "ArgWord"}
KINDS = {"NAME": "Name", "STRING": "Quoted", "FOCUS": "Focus"}
FAULTS = {"bad byte": "BadByte", "open string": "OpenString", "number too large": "BigNumber",
          "unexpected": "Unexpected", "nesting too deep": "TooDeep", "named twice": "TwiceNamed",
          "unknown name": "UnknownName", "wrong kind": "WrongKind", "cyclic parent": "CyclicParent",
          "bad focus": "BadFocus"}
CAUSES = {"no constraint": "NoConstraint", "too many sites": "TooManySites", "too many statements": "TooManyStmts",
          "over cost": "OverCost", "too many": "TooMany", "no slot": "NoSlot", "no room": "NoRoom",
          "unmovable": "Unmovable"}


def option(x):
    return "None" if x is None else "Some(%s)" % x


def truth(x):
    return "true" if x else "false"


def token_kind(t):
    if t.kind == "NUMBER":
        return "Number(%d)" % int(t.text)
    if t.kind == "SIGN":
        return "Sign(%s)" % SIGNS[t.text]
    return WORDS[t.text] if t.kind == "WORD" else KINDS[t.kind]


def place(at, line, col):
    return "Place { at: %d, line: %d, col: %d }" % (at, line, col)


def token(t):
    if t is None:
        return "None"
    return "Some(Token { kind: %s, from: %d, to: %d, line: %d, col: %d })" % (
        token_kind(t), t.from_, t.to, t.line, t.col)


def code_part(code):
    return {"all": "All", "module": "Module(%s)", "procedure": "Procedure(%s)"}[code[0]].replace("%s", str(code[-1]))


def focus(f):
    hart = option(None if f.hart is None else "HartNo { number: %d }" % f.hart)
    return "Focus { code: %s, hart: %s, object: %s }" % (code_part(f.code), hart, option(f.object))


def cause(c):
    return CAUSES[c[0]] + ("(%s)" % ", ".join(str(x) for x in c[1:]) if len(c) > 1 else "")


def state(x):
    """What came of a node of a search."""
    if x.state == "Barred":
        return "Barred(%s)" % cause(x.cause)
    return "Unfinished(%d)" % x.seen if x.state == "Unfinished" else x.state


def node(x):
    head = "phase: %d, parent: %s, hypothesis: %d" % (x.phase, option(x.parent), x.hypothesis)
    interval = "from: %d, to: %d, value: %d, ticks: %d" % (x.from_, x.to, x.value, x.ticks)
    return "Node { %s, focus: %s, state: %s, seen: %d, %s }" % (head, focus(x.focus), state(x), x.seen, interval)

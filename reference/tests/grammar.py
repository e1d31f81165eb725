"""The grammar of configurations as it is written, and a recogniser that goes by it."""
import re

GRAMMAR = r'''
conf       = { item } .
item       = "include" ("metrics" | "hypotheses") ";" | "sync" NAME ";"
           | metric | constraint | hypothesis | search | phase | wish .
metric     = "metric" NAME "{" "units" STRING ";" { "constraint" NAME ";" }
             "base" "is" ("counter" | "timer") [ "initially" NUMBER ] blocks "}" .
constraint = "constraint" NAME FOCUS "is" ("counter" | "replace")
             [ "initially" NUMBER ] blocks .
blocks     = "{" { "foreach" "func" "in" set "{" { insertion } "}" } "}" .
set        = "$focus" | "$all" | "[" NAME { "," NAME } "]" .
insertion  = ("prepend" | "append") ("entry" | "return" | "call" | "after")
             [ "constrained" ] "(*" { stmt } "*)" .
stmt       = "if" "(" left cmp right ")" stmt | var ("++" | "--") ";"
           | var "=" NUMBER ";" | ("start" | "stop") "(" var ")" ";" .
left       = var | "$arg" "[" NUMBER "]" .     right = NUMBER | "$value" .
cmp        = "==" | "!=" | "<" | "<=" | ">" | ">=" .   var = NAME | "$metric" .
hypothesis = "hypothesis" NAME "{" [ "parent" NAME ";" ] "metric" NAME ";"
             "threshold" NUMBER ";" [ "axes" NAME { "," NAME } ";" ] "}" .
search     = "search" "{" "window" NUMBER ";" "cost" NUMBER ";"
             "observed" NUMBER ";" "}" .
phase      = "phase" NAME "at" NUMBER ";" .
wish       = "at" NUMBER ("show" | "drop") NAME FOCUS ";" .
'''


class Productions:
    """The alternatives of each name. A terminal is ('text', word) or ('kind', kind of token)."""

    def __init__(self, text):
        self.tokens = re.findall(r'"[^"]*"|[A-Za-z]+|[{}\[\]()|=.]', text)
        self.at, self.of = 0, {}
        while self.at < len(self.tokens):
            name = self.tokens[self.at]
            self.at += 2
            self.of[name] = self.alternatives()
            self.at += 1

    def alternatives(self):
        out = [self.sequence()]
        while self.tokens[self.at] == "|":
            self.at += 1
            out.append(self.sequence())
        return out

    def fresh(self, alternatives):
        name = "_%d" % len(self.of)
        self.of[name] = alternatives
        return name

    def sequence(self):
        out = []
        while self.tokens[self.at] not in ("|", ")", "]", "}", "."):
            t = self.tokens[self.at]
            self.at += 1
            if t in ("(", "[", "{"):
                out.append(self.group(t))
            elif t[0] == '"':
                out.append(("text", t[1:-1].encode()))
            else:
                out.append(("kind", t) if t.isupper() else t)
        return out

    def group(self, bracket):
        name = self.fresh([])
        inside = self.alternatives()
        self.at += 1
        self.of[name] = {"(": inside, "[": inside + [[]], "{": [a + [name] for a in inside] + [[]]}[bracket]
        return name


P = Productions(GRAMMAR).of


class Recogniser:
    """Sets of states (name, body, dot, start), one before each token and one at the end."""

    def __init__(self):
        self.sets = []
        self.open([("conf", tuple(a), 0, 0) for a in P["conf"]])

    def open(self, states):
        self.sets.append([])
        self.seen = set()
        for x in states:
            self.put(x)
        for x in self.sets[-1]:           # it grows
            self.advance(x)

    def put(self, x):
        if x not in self.seen:
            self.seen.add(x)
            self.sets[-1].append(x)

    def advance(self, x):
        name, body, dot, start = x
        k = len(self.sets) - 1
        if dot == len(body):
            for y in list(self.sets[start]):
                if y[2] < len(y[1]) and y[1][y[2]] == name:
                    self.put((y[0], y[1], y[2] + 1, y[3]))
        elif isinstance(body[dot], str):
            for a in P[body[dot]]:
                self.put((body[dot], tuple(a), 0, k))
            # what is empty may be complete already
            if any(y[0] == body[dot] and y[3] == k and y[2] == len(y[1]) for y in self.sets[-1]):
                self.put((name, body, dot + 1, start))

    def take(self, token):
        """Whether the token continues."""
        wanted = {x[1][x[2]] for x in self.sets[-1] if x[2] < len(x[1]) and not isinstance(x[1][x[2]], str)}
        word = ("text", token.text)
        took = word if token.kind in ("NAME", "SIGN", "WORD") and word in wanted else ("kind", token.kind)
        if took not in wanted:
            return False
        self.open([(a, b, c + 1, d) for a, b, c, d in self.sets[-1] if c < len(b) and b[c] == took])
        return True

    def is_whole(self):
        return any(x[0] == "conf" and x[2] == len(x[1]) and x[3] == 0 for x in self.sets[-1])


def first_bad(tokens):
    """The number of the first token that no configuration has there, that of the end where more has to come, or
    None."""
    r = Recogniser()
    for k, t in enumerate(tokens):
        if not r.take(t):
            return k
    return None if r.is_whole() else len(tokens)

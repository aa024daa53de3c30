"""The text of antt, as far as its names go: tokens, brackets, and which names a text uses that are not bound in it.

A name is any run of characters other than spaces and ( ) { } . ; , @ " « ». A dot is a projection (`(g x).f`), a path (`module.name`, or `x.f`, a
projection too), or the end of a λ's binders (`λ x. e`). There is no type ascription, so `(x : A)` always binds x."""
import re
from dataclasses import dataclass, field

WORD = r'[^\s(){}.;,@"«»]+'
TOKEN = re.compile(
    r'(?P<space>\s+)|(?P<comment>--[^\n]*)|(?P<text>"(?:\\.|[^"\\])*")|(?P<quoted>«[^»]*»)|(?P<bracket>[(){}])|(?P<sep>[;,])'
    rf"|(?P<dot>\.+)|(?P<at>@)|(?P<name>{WORD})"
)
KEYWORDS = set("data record deriving module where use mod pub package using open as unfoldable abbrev axiom unfold unfolding mutual".split())
KEYWORDS |= set("infix infixl infixr elim let in do λ ∀ Type → × = : | ↦ ← [ ] ? _ 𝕀 ⌜ ⌝ ⊔".split())
OPEN = {"(": ")", "{": "}"}


@dataclass
class Token:
    """kind: name, path (`a.b`, its words in parts), field (`.f`), stop (the dot of a λ), sep, text, open or close."""

    kind: str
    text: str
    parts: list = field(default_factory=list)


@dataclass
class Group:
    """What stands between two brackets."""

    bracket: str
    nodes: list


@dataclass
class Used:
    """What a text uses and does not bind: names, paths behind an alias or a definition, and fields that it takes from something."""

    names: list = field(default_factory=list)
    paths: list = field(default_factory=list)
    fields: list = field(default_factory=list)


def pieces(text):
    """The raw tokens of a text with their places: (kind, text, start, end), spaces and comments left out."""
    at = 0
    while at < len(text):
        found = TOKEN.match(text, at)
        if found.lastgroup not in ("space", "comment"):
            yield found.lastgroup, found.group(), found.start(), found.end()
        at = found.end()


def dots(raw):
    """Raw tokens with each dot read as what it is: part of a path, a field or a stop."""
    out = []
    for k, (kind, text, start, end) in enumerate(raw):
        if kind != "dot":
            out.append([kind, text, start, end])
            continue
        tight = k > 0 and raw[k - 1][3] == start and raw[k - 1][0] in ("name", "quoted")
        follows = k + 1 < len(raw) and raw[k + 1][2] == end and raw[k + 1][0] in ("name", "quoted")
        out.append(["path" if tight and follows else "field" if follows else "stop", text, start, end])
    return out


def tokens(text):
    """The tokens of a text."""
    raw = dots(list(pieces(text)))
    out = []
    k = 0
    while k < len(raw):
        kind, word, *_ = raw[k]
        k += 1
        if kind == "field":
            out.append(Token("field", raw[k][1]))
            k += 1
            while k < len(raw) and raw[k][0] == "path":
                out.append(Token("field", raw[k + 1][1]))
                k += 2
        elif kind in ("name", "quoted"):
            words = [word]
            while k < len(raw) and raw[k][0] == "path":
                words.append(raw[k + 1][1])
                k += 2
            out.append(Token("path" if len(words) > 1 else "name", ".".join(words), words))
        elif kind == "bracket":
            out.append(Token("open" if word in OPEN else "close", word))
        elif kind in ("sep", "text", "stop"):
            out.append(Token(kind, word))
    return out


def tree(toks):
    """Tokens with what stands between brackets as groups; a bracket that does not match ends what it can."""
    stack = [Group("", [])]
    for t in toks:
        if t.kind == "open":
            stack.append(Group(t.text, []))
        elif t.kind == "close":
            if len(stack) > 1:
                done = stack.pop()
                stack[-1].nodes.append(done)
        else:
            stack[-1].nodes.append(t)
    while len(stack) > 1:
        done = stack.pop()
        stack[-1].nodes.append(done)
    return stack[0].nodes


def is_name(node, text=None):
    return isinstance(node, Token) and node.kind == "name" and (text is None or node.text == text)


def split(nodes, separators):
    """Nodes cut at the separators of their own level."""
    out = [[]]
    for n in nodes:
        if isinstance(n, Token) and n.text in separators and n.kind in ("sep", "name"):
            out.append([])
        else:
            out[-1].append(n)
    return out


def place(nodes, text, start=0):
    """Where that name stands first at this level, or -1."""
    return next((k for k in range(start, len(nodes)) if is_name(nodes[k], text)), -1)


def is_number(word):
    return re.fullmatch(r"[0-9][0-9a-fA-Fxob_]*", word) is not None


class Scope:
    """Reads terms, with what is bound so far; `constructor` tells whether a bare name in a pattern is a constructor and binds nothing."""

    def __init__(self, constructor):
        self.constructor = constructor
        self.used = Used()

    def bind(self, nodes, env):
        """The names that a pattern binds; its constructors are used."""
        out = set()
        for n in nodes:
            if isinstance(n, Group):
                inner = n.nodes
                for part in split(inner, {",", ";"}):
                    at = place(part, "=")
                    out |= self.bind(part[at + 1 :], env)
            elif n.kind == "path":
                self.used.paths.append(n)
            elif n.kind == "name" and n.text not in KEYWORDS and not is_number(n.text):
                if self.constructor(n.text):
                    self.used.names.append(n)
                else:
                    out.add(n.text)
        return out

    def term(self, nodes, env):
        """A term: what it uses that env does not bind."""
        outer = env
        k = 0
        while k < len(nodes):
            n = nodes[k]
            k += 1
            if isinstance(n, Group):
                env = self.group(n, env, k > 1 and is_name(nodes[k - 2], "record"))
            elif n.kind == "sep":
                env = outer
            elif is_name(n, "λ"):
                end = next((j for j in range(k, len(nodes)) if isinstance(nodes[j], Token) and nodes[j].kind == "stop"), len(nodes))
                env = self.binders(nodes[k:end], env)
                k = end + 1
            elif is_name(n, "let"):
                env, k = self.let(nodes, k, env)
            elif is_name(n, "elim"):
                k = self.cases(nodes, k, env)
            else:
                self.word(n, env)
        return env

    def word(self, n, env):
        if n.kind == "field":
            self.used.fields.append(n)
        elif n.kind == "path":
            if n.parts[0] not in env:
                self.used.paths.append(n)
        elif n.kind == "name" and n.text not in env and n.text not in KEYWORDS and not is_number(n.text):
            self.used.names.append(n)

    def group(self, g, env, literal):
        """A bracket: a record literal, a binder, an argument by its name, or a term. What it binds stays bound behind it."""
        if literal:
            self.literal(g, env)
            return env
        colon = place(g.nodes, ":")
        if colon > 0 and all(is_name(x) for x in g.nodes[:colon]):
            self.term(g.nodes[colon + 1 :], env)
            return env | {x.text for x in g.nodes[:colon]}
        if g.bracket == "{" and len(g.nodes) > 1 and is_name(g.nodes[1], "="):
            self.term(g.nodes[2:], env)
            return env
        self.term(g.nodes, env)
        return env

    def literal(self, g, env):
        """record { label = term; .. }, or the type record { label : type; .. }, whose labels bind."""
        for part in split(g.nodes, {";"}):
            if len(part) > 1 and is_name(part[1]) and part[1].text in ("=", ":"):
                self.term(part[2:], env)
                if part[1].text == ":":
                    env = env | {part[0].text}
            else:
                self.term(part, env)

    def binders(self, nodes, env):
        for n in nodes:
            if isinstance(n, Group) and place(n.nodes, ":") > 0:
                env = self.group(n, env, False)
            else:
                env = env | self.bind([n], env)
        return env

    def let(self, nodes, k, env):
        """let PATTERN [: TYPE] = TERM in: the environment behind it, and where that begins."""
        equals = place(nodes, "=", k)
        depth, end = 1, k
        while end < len(nodes) and depth:
            depth += is_name(nodes[end], "let")
            depth -= is_name(nodes[end], "in")
            end += 1
        head = nodes[k:equals]
        colon = place(head, ":")
        if colon >= 0:
            self.term(head[colon + 1 :], env)
            head = head[:colon]
        self.term(nodes[equals + 1 : end - 1], env)
        return env | self.bind(head, env), end

    def cases(self, nodes, k, env):
        """elim TERM [as P] [ pattern ↦ term | .. ]: where what follows it begins."""
        begin = place(nodes, "[", k)
        if begin < 0:
            return k
        self.term([n for n in nodes[k:begin] if not is_name(n, "as")], env)
        depth, end = 1, begin + 1
        while end < len(nodes) and depth:
            depth += is_name(nodes[end], "[") - is_name(nodes[end], "]")
            end += 1
        for case in split(nodes[begin + 1 : end - 1], {"|"}):
            arrow = place(case, "↦")
            self.term(case[arrow + 1 :], env | self.bind(case[:arrow], env))
        return end

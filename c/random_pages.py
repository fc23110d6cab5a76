"""Random pages for c/compare: a template, globals and partials.

Each page has its own rate of faults, which is often 0. Some templates are damaged after they are made, and some are tokens
or characters in any order.
"""
import json
import random

NAMES = ["x", "y", "list", "map"]
PATHS = """map.a map.b list[0] list[9] list[-1] list.size list.first map.b[1].c map['a'] map[x] no no.name i i[0] forloop.index
forloop.last forloop.length tablerowloop.col z""".split()
LITERALS = ["'text'", '"it\'s"', "''", "' '", "'雨'", "'7'", "' 12 '", "'a,b c'", "'<b>&amp;</b>'", "'2026-11-27'"]
LITERALS += ["'2024-02-29 23:59:58 -0130'", "0", "7", "-3", "+2", "1", "9223372036854775807", "-9223372036854775808"]
LITERALS += ["true", "false", "nil", "null", "empty", "blank"]
WRONG = ["1.5", "9223372036854775808", "x.", "x[", "x[]", "(1..", "'text", "a b", "x | ", "x | wrong", "-", "1..2", "nil.x", "é"]
SERIES = ["list", "list", "(1..3)", "(x..2)", "(3..1)", "map", "map.b", "i", "x", "no", "nil", "'a'", "(0..1000001)", "('1'..'3')"]
COMPARISONS = ["==", "!=", "<>", "<", ">", "<=", ">="]
TEXTS = ["a", "b", "ß雨", " ", "\n", "🌧", "\r\n", " \t", "{", "}", "%", "{ {", "'", "|", "<b>", "&", "\0", "\u0301", "}}"]
# The standard filters, each with its arguments by the letters of ARGUMENTS. Those after ? may be left out.
FILTERS = """append:t prepend:t upcase downcase capitalize strip lstrip rstrip strip_newlines newline_to_br strip_html escape
escape_once url_encode url_decode base64_encode base64_decode replace:tt replace_first:tt replace_last:tt remove:t
remove_first:t remove_last:t split:t truncate:?nt truncatewords:?nt slice:n?n join:?t first last reverse concat:l map:p
where:p?v compact:?p uniq:?p sum:?p sort:?p sort_natural:?p sort_numeric:?p plus:n minus:n times:n divided_by:n?n modulo:n abs at_least:n
at_most:n ceil floor round:?n default:v?a size json date:d""".split()
ARGUMENTS = {
    "t": ["'a'", "', '", "''", "' '", "'雨'", "'<'", "x", "list", "7"],
    "n": ["0", "1", "2", "-1", "-2", "3", "7", "'2'", "x", "9223372036854775807", "'two'"],
    "p": ["'a'", "'b'", "'c'", "x", "7"],
    "v": ["'none'", "true", "x", "1", "nil"],
    "l": ["list", "map.b", "x", "map"],
    "d": ["'%Y-%m-%d'", "'%d %B %Y %H:%M:%S'", "'%a %^b %-e %j %s'", "'%5Y|%:z|%Z'", "'%'", "''", "'%%'", "'%U %V %G'", "x"],
    "a": ["allow_false: true", "allow_false: x", "wrong: 1"],
}
PARTIALS = ["'a'", "'a'", "'b'", "'c'", "'c'", "'none'", "x", "'雨.html'"]
WRONG_TAGS = """wrong|else|endif|endfor|when 1|assign|assign x|assign x = 1 2|increment|if|for i|include|include 'a' x
render 'a', y:|raw|cycle|capture|case|for i in list limit|tablerow i in list reversed""".replace("\n", "|").split("|")
TOKENS = """{{ }} {% %} {{- -}} {%- -%} | : , . .. [ ] ( ) ' " == < = - 1 2 x list 'a' if endif for in endfor else elsif assign
include render raw endraw case when endcase capture endcapture comment endcomment upcase cycle nil true a.b""".split() + ["\n"]
VALUES = [0, 7, -1, 2**63 - 1, -(2**63), True, False, None, "", "text", "雨 🌧", "a,b", "<i>\n</i>", "2026-11-27", [], {}]
LISTS = [[3, 1, 2], ["b", "A", "a"], [1, None, "1"], [[1, [2]], 3], [{"a": 1}, {"a": 2, "b": 1}, {}], [True, 1]]
MAPS = [{"a": 1, "b": [1, {"c": "d"}]}, {"b": {"a": "x"}, "a": None}, {"雨": 1, "": 2, "size": 9}]
WRONG_MEMBERS = ["1.5", "1e2", "-0", "1.0", "9223372036854775808", "18446744073709551616", "nul", "01", "'a'", "[1,]", '"\\ud800"']
WRONG_MEMBERS += ["[" * 126 + "]" * 126, "[" * 127 + "]" * 127, "[" * 200, '"\t"', '"\\u0000"', '{"a":1 "b":2}', '{"a":1,"a":2}']
WRONG_GLOBALS = ["", " ", "[]", "7", "null", '"{}"', "{", "{}x", "{}{}", "\ufeff{}", '{"x"}', "{x: 1}", " {} ", '{"x":1,"x":[2]}']
WRONG_BYTES = [b"\xff", b"\x80", b"\xc3", b"\xed\xa0\x80", b"\xf4\x90\x80\x80", b"\xc0\x80"]


LANGUAGES = ("small", "library", "standard")


class Pages:
    """The pages of a seed in a language: texts and outputs of values alone, the tag library, or standard Liquid."""

    def __init__(self, seed, language):
        self.random = random.Random(seed)
        self.small = language == "small"
        self.standard = language == "standard"
        self.faults = self.one([0, 0, 0, 0, 0.01, 0.03, 0.1, 0.4])

    def one(self, items):
        return self.random.choice(items)

    def chance(self, rate):
        return self.random.random() < rate

    def is_fault(self):
        return self.chance(self.faults)

    def has_more(self):
        """Returns whether a word of the standard language may come here. In the other language it is a fault."""
        return self.standard or self.is_fault()

    def some(self, most, piece, between=""):
        """Returns from one to this many pieces."""
        return between.join(piece() for _ in range(self.random.randint(1, most)))

    def maybe(self, piece):
        return piece() if self.chance(0.4) else ""

    def value(self):
        if self.is_fault():
            return self.one(WRONG)
        return self.one(self.one([NAMES, NAMES, PATHS, LITERALS]))

    def filter(self):
        name, _, kinds = self.one(FILTERS).partition(":")
        needed, _, free = kinds.partition("?")
        kinds = needed + free[: self.random.randint(0, len(free))]
        if self.is_fault():
            name, kinds = self.one([("wrong", ""), (name, kinds + "v"), (name, kinds[:-1]), (name, kinds + "aa")])
        arguments = ", ".join(self.one(ARGUMENTS[kind]) for kind in kinds)
        return f" | {name}: {arguments}" if arguments else f" | {name}"

    def chain(self):
        return self.value() + (self.some(3, self.filter) if self.standard and self.chance(0.5) else "")

    def output(self):
        return self.one(["{{ %s }}", "{{ %s }}", "{{- %s -}}", "{{%s}}", "{{ %s -}}"]) % self.chain()

    def test(self):
        comparisons = COMPARISONS + ["contains"] * (2 if self.has_more() else 0)
        return self.value() if self.chance(0.4) else f"{self.value()} {self.one(comparisons)} {self.value()}"

    def condition(self):
        return self.some(3, self.test, self.one([" and ", " or "])) if self.has_more() and self.chance(0.3) else self.test()

    def pair(self):
        return f", {self.one(['y', 'x', 'z'])}: {self.value()}"

    def loop(self, more):
        """Returns the words of a loop. Its further options are of the standard language."""
        words = f"{self.one(['i', 'i', 'x', 'forloop'])} in {self.one(SERIES)}"
        options = [f"limit: {self.one(['2', '0', '-1', 'x', 'nil'])}", f"offset: {self.one(['1', '-1', 'x'])}", more]
        return " ".join([words, *(self.random.sample(options, self.one([0, 0, 1, 2])) if self.has_more() else [])])

    def tag(self):
        """Returns the words of a tag that opens no block."""
        if self.is_fault():
            return self.one(WRONG_TAGS)
        tags = [
            lambda: f"assign {self.one(NAMES + ['z'])} = {self.chain()}",
            lambda: f"increment {self.one(['n', 'x'])}",
            lambda: f"{self.one(['include', 'render'])} {self.one(PARTIALS)}{self.maybe(self.pair)}{self.maybe(self.pair)}",
            lambda: self.one(["break", "continue", "increment n", "increment n"]),
        ]
        more = [
            lambda: f"decrement {self.one(['n', 'x'])}",
            lambda: f"echo {self.chain()}",
            lambda: f"cycle {self.one(['', '', 'x: ', '7: ', 'list: '])}{self.some(3, self.value, ', ')}",
        ]
        return self.one(tags + more if self.has_more() else tags)()

    def block(self, depth):
        """Returns the name of a block, the words of its tag, and its body."""
        def inner():
            return self.text(depth + 1)

        def rest():
            return "{% else %}" + inner()

        def branches():
            return inner() + self.maybe(lambda: "{%% elsif %s %%}%s" % (self.condition(), inner())) + self.maybe(rest)

        def choice():
            return "{%% when %s %%}%s" % (self.some(2, self.value, self.one([", ", " or "])), inner())

        blocks = [
            lambda: ("if", self.condition(), branches()),
            lambda: ("for", self.loop("reversed"), inner() + self.maybe(rest)),
            lambda: ("raw", "", self.one(["{{ x }}", "{% if %}", "{%", inner()])),
        ]
        more = [
            lambda: ("unless", self.condition(), branches()),
            lambda: ("case", self.value(), inner() + self.some(2, choice) + self.maybe(rest)),
            lambda: ("tablerow", self.loop(f"cols: {self.one(['2', '3', '0', 'x'])}"), inner()),
            lambda: ("capture", self.one(["x", "y", "list"]), inner()),
            lambda: ("ifchanged", "", inner()),
            lambda: ("comment", "", inner()),
        ]
        return self.one(blocks * 2 + more if self.has_more() else blocks)()

    def element(self, depth):
        if depth > 2 or self.chance(0.55):
            return self.one(["{%% %s %%}", "{%%- %s -%%}", "{%%%s%%}"]) % self.tag()
        name, words, body = self.block(depth)
        end = self.one(["", "{% endif %}", "{% end %}"] if self.is_fault() else ["{% end@ %}", "{%- end@ -%}"])
        return "{%% %s %s %%}" % (name, words) + body + end.replace("@", name)

    def text(self, depth=0):
        pieces = [lambda: self.one(TEXTS if self.chance(0.2) else TEXTS[:5]), self.output]
        if not self.small or self.is_fault():
            pieces.append(lambda: self.element(depth))
        return "".join(self.one(pieces)() for _ in range(self.random.randint(*[(1, 8), (0, 4)][depth > 0])))

    def mixed(self):
        """Returns tokens in any order, or characters."""
        if self.chance(0.7):
            return self.some(30, lambda: self.one(TOKENS) + self.one(["", " "]))
        return self.some(30, lambda: chr(self.random.randrange(self.one([128, 0xD800])) + self.one([0, 0, 0xE000])))

    def template(self):
        text = self.mixed() if self.chance(0.06) else self.text()
        while self.chance(0.06):
            begin, end = sorted(self.random.randint(0, len(text)) for _ in range(2))
            text = self.one([text[:begin] + text[end:], text[:end] + text[begin:], text[:begin] + self.one(TOKENS) + text[begin:]])
        return self.damaged(text)

    def damaged(self, text):
        data = text.encode()
        if self.chance(0.005):
            return self.random.randbytes(self.random.randint(0, 40))
        if self.chance(0.015):
            place = self.random.randint(0, len(data))
            return data[:place] + self.one(WRONG_BYTES) + data[place:]
        return data

    def json(self, names):
        text = json.dumps(names, ensure_ascii=self.chance(0.5), indent=self.one([None, None, 1]))
        kind = self.random.random()
        if kind < 0.04:
            return self.one(WRONG_GLOBALS)
        if kind < 0.08:
            return text[:-1] + ', "w": ' + self.one(WRONG_MEMBERS) + "}"
        if kind < 0.11:
            place = self.random.randint(0, len(text))
            return text[:place] + self.one('{}[]",: \\0e.-\n') + text[place + self.one([0, 1]) :]
        return text

    def globals(self):
        kinds = {"x": VALUES, "y": VALUES + LISTS, "list": LISTS * 4 + VALUES, "map": MAPS * 6 + VALUES}
        return self.damaged(self.json({name: self.one(values) for name, values in kinds.items() if self.chance(0.9)}))

    def page(self):
        """Returns a template, a text of globals, and partials by their names."""
        partials = {name: self.damaged(self.text(2)) for name in ("a", "b", "c", "雨.html") if self.chance(0.8)}
        return self.template(), self.globals(), partials

"""The templates, globals and calls that tools/benchmark measures, of any size."""
from __future__ import annotations

import json
from typing import Callable, NamedTuple


class Kind(NamedTuple):
    """A kind of input: its title, the size that its instructions are counted at, and the sizes that are timed."""

    name: str
    title: str
    counted: int
    timed: tuple[int, ...]


PLAIN = "A line of a page with no name in it, and some more words to fill it."
MIXED = (
    'Dear {{ name }}, {% if name == "World" %}hello {{ name | append: "!" }}{% else %}who is {{ name.size }}{% endif %}. '
    '{% assign x = name.size %}A line of plain text stands here, and {{ x }} is {{ name["size"] }}.{% include "small", a: name %}'
)
BLOG = (
    '{% for post in posts %}{% if post.words > 9 %}{% include "card" %}'
    "{% for tag in post.tags %}{{ tag }} {% endfor %}{% endif %}{% endfor %}\n"
)
PARTIALS = {
    "card": '<h2>{{ post.title }}</h2> <p>{{ post.words | append: " words" }}</p>\n',
    "small": "A part of {{ a }}.\n",
    "empty": "",
}
LOOP, END = "{% for x in (1..1) %}", "{% endfor %}"


def repeated(line: str, size: int) -> str:
    """Returns the first bytes of a line over and over."""
    return ((line + "\n") * (size // (len(line) + 1) + 1))[:size]


def lines(line: str, size: int) -> str:
    """Returns whole copies of a line, in at most so many bytes."""
    return (line + "\n") * (size // (len(line) + 1))


def inside(opening: str, end: str, body: str, depth: int) -> str:
    """Returns a text in so many blocks."""
    return opening * depth + body + end * depth


def over(items: str, body: str, turns: int) -> str:
    """Returns a loop over a list of twenty, as often as makes so many turns."""
    return f"{{% for i in (1..{turns // 20}) %}}{{% for x in {items} %}}{body}{{% endfor %}}{{% endfor %}}\n"


def turns(body: str, count: int) -> str:
    """Returns a loop of so many turns."""
    return f"{{% for i in (1..{count}) %}}{body}{{% endfor %}}\n"


def posts(count: int) -> list[dict[str, object]]:
    """Returns posts with a title, a number of words and three tags."""
    return [{"title": f"Post & {at}", "words": at * 37 % 1000, "tags": ["one", "two", f"t{at}"]} for at in range(count)]


def nested_loops(count: int) -> str:
    return turns("{% for j in (1..100) %}{{ i }} {{ j }}{% endfor %}", count // 100)


def site(count: int) -> str:
    """Returns a page that renders a partial for each of so many posts, each by a tag of its own."""
    return "".join(f'{{% include "card", post: posts[{number}] %}}\n' for number in range(count))


def each(line: str) -> Callable[[int], str]:
    """Returns what makes whole lines."""
    return lambda size: lines(line, size)


def one_turn(body: str) -> Callable[[int], str]:
    """Returns what makes a loop with this body."""
    return lambda size: turns(body, size)


def always(text: str) -> Callable[[int], str]:
    """Returns what makes one text for each size, since its globals grow."""
    return lambda size: text


TEMPLATES: dict[str, Callable[[int], str]] = {
    "names": each("A line of a page with {{ name }}, {{- name }} and {{ name -}} in it."),
    "globals": always("{{ posts.size }}\n"),
    "site": site,
    "raw": lambda size: repeated(PLAIN, size),
    "blanks": lambda size: " " * size,
    "braces": lambda size: repeated("{ { { } } } {-{ {-% {", size),
    "openers": lambda size: repeated("{{ ! }} {% ! %} {{- ! -}}", size),
    "late": lambda size: repeated(PLAIN, size) + "{{ ! }}",
    "alone": lambda size: "{" * size,
    "brackets": lambda size: "{{ " + repeated("a[", size).replace("\n", ""),
    "filters": lambda size: "{{ a" + repeated(' | b: 1, c: "d"', size).replace("\n", " "),
    "tokens": lambda size: "{% if" + repeated(" a[1].b <= (1..c)", size).replace("\n", " "),
    "quote": lambda size: '{{ "' + repeated("A text that no quote ends, {{ and that goes on.", size),
    "inner": lambda size: "{{ a" + " " * size,
    "paths": each('A line of a page with {{ name.size.size.size }} and {{ name["size"].size.size }}.'),
    "chains": each('A line with {{ name | append: "!" | append: name }} and {{ "a" | append: 1 | append: "b" }}.'),
    "mixed": each(MIXED),
    "list": always("{% for post in posts %}{{ post.title }} {{ post.words }}{% endfor %}\n"),
    "range": one_turn("{{ i }} {{ forloop.last }}"),
    "loops": nested_loops,
    "turn": one_turn(""),
    "last": one_turn("{{ forloop.last }}"),
    "numbers": lambda size: over("numbers", "{{ x }}", size),
    "texts": lambda size: over("texts", "", size),
    "posts": lambda size: over("posts", "{% if x.words > 500 %}{{ x.title }}{% endif %}", size),
    "compared": lambda size: over("posts", "{% if x.words == i %}{% endif %}", size),
    "include-post": one_turn("{% include 'empty', x: post %}"),
    "render-post": one_turn("{% render 'empty', x: post %}"),
    "assign-list": one_turn("{% assign x = texts %}"),
    "assign-text": one_turn("{% assign x = text %}"),
    "blog": always(BLOG),
    "conditions": each('{% if name == "World" %}a{% elsif name %}b{% else %}c{% endif %}'),
    "nested": each(inside("{% if true %}", "{% endif %}", "a", 100)),
    "includes": each('{% include "small", a: name %}'),
    "renders": each('{% render "small", a: name %}'),
    "escaped": lambda size: "{% raw %}" + repeated("{ {{ a }} {% b %} {{% } }} %} {-", size) + "{% endraw %}",
    "long": lambda size: "{% assign x = 1 " + lines("a[1].b <= (1..c)", size).replace("\n", " ") + "%}",
    "tags": each("{% assign x = 1 %}{% assign y = x %}"),
    "frames": each(inside(LOOP, END, "{{ x }}", 100)),
    "shallow": lambda size: inside(LOOP, END, lines("A name under one frame: {{ name }}.", size).rstrip("\n"), 1),
    "deep": lambda size: inside(LOOP, END, lines("A name under many frames: {{ name }}.", size).rstrip("\n"), 99),
}

# The kinds whose globals are so many objects, and those whose globals are the lists of twenty.
OF_OBJECTS = ("globals", "site", "list", "blog")
OF_LISTS = ("numbers", "texts", "posts", "compared", "include-post", "render-post", "assign-list", "assign-text")
# The kinds that are counted by a turn.
LOOPS = ("list", "range", "loops", "turn", "last", "blog", *OF_LISTS)

SIZES = (250000, 500000, 1000000, 2000000)
OBJECTS = (1250, 2500, 5000, 10000)
ITEMS = (12500, 25000, 50000, 100000)
TURNS = (62500, 125000, 250000, 500000)
KINDS = (
    Kind("names", "text with names", 100000, SIZES),
    Kind("globals", "globals with a list of objects", 500, OBJECTS),
    Kind("site", "a site with a list of objects", 500, OBJECTS),
    Kind("raw", "raw text alone", 100000, SIZES),
    Kind("blanks", "one run of blanks", 100000, (64000, 128000, *SIZES)),
    Kind("braces", "braces that open nothing", 100000, SIZES),
    Kind("openers", "openers that are not Liquid", 100000, SIZES),
    Kind("late", "a fault after raw text", 100000, SIZES),
    Kind("alone", "braces alone", 100000, SIZES),
    Kind("brackets", "brackets that nothing closes", 100000, SIZES),
    Kind("filters", "filters that nothing ends", 100000, SIZES),
    Kind("tokens", "tokens that nothing ends", 100000, SIZES),
    Kind("quote", "a quote that nothing ends", 100000, SIZES),
    Kind("inner", "blanks inside an expression", 100000, SIZES),
    Kind("paths", "paths of three steps", 100000, SIZES),
    Kind("chains", "two filters a chain", 100000, SIZES),
    Kind("mixed", "a page of all these", 100000, SIZES),
    Kind("list", "a loop over a list", 1000, ITEMS),
    Kind("range", "a loop over a range", 2000, TURNS),
    Kind("loops", "loops in a loop", 2000, TURNS),
    Kind("turn", "an empty turn of a loop", 2000, TURNS),
    Kind("last", "a turn that writes forloop.last", 2000, TURNS),
    Kind("numbers", "a number of a list in a loop", 2000, TURNS),
    Kind("texts", "a text of a list in an empty loop", 2000, TURNS),
    Kind("posts", "a post in a loop with a condition", 2000, TURNS),
    Kind("compared", "a post compared in a loop in a loop", 2000, TURNS),
    Kind("include-post", "an include of a post in a turn", 2000, TURNS),
    Kind("render-post", "a render of a post in a turn", 2000, TURNS),
    Kind("assign-list", "an assign of a list in a turn", 2000, TURNS),
    Kind("assign-text", "an assign of a text in a turn", 2000, TURNS),
    Kind("blog", "a post of a blog with its JSON", 500, ITEMS),
    Kind("conditions", "conditions side by side", 100000, SIZES),
    Kind("nested", "a hundred conditions nested", 100000, SIZES),
    Kind("includes", "includes side by side", 100000, SIZES),
    Kind("renders", "renders side by side", 100000, SIZES),
    Kind("escaped", "braces in one raw body", 100000, SIZES),
    Kind("long", "many tokens in one tag", 100000, SIZES),
    Kind("tags", "tags side by side", 100000, SIZES),
    Kind("frames", "frames in frames", 100000, SIZES),
    Kind("shallow", "names under one frame", 100000, SIZES),
    Kind("deep", "names under ninety-nine frames", 100000, SIZES),
)

# Each standard filter in a call, with the name of its input.
FILTERS = """text append: "!"
code base64_decode
text base64_encode
text capitalize
text downcase
html escape
html escape_once
text lstrip
lines newline_to_br
text prepend: "!"
text remove: "i"
text remove_first: "i"
text remove_last: "i"
text replace: "i", "y"
text replace_first: "i", "y"
text replace_last: "i", "y"
text rstrip
text slice: 1, 4
text split: "i"
text strip
html strip_html
lines strip_newlines
text truncate: 20
text truncatewords: 5
text upcase
text url_decode
text url_encode
list compact
list concat: list
list first
list join
list last
posts map: "title"
list reverse
list sort
list sort_natural
numbers sort_numeric
numbers sum
list uniq
posts where: "draft"
number abs
number at_least: 5
number at_most: 5
number ceil
number divided_by: 7
number floor
number minus: 7
number modulo: 7
number plus: 7
number round: -2
number times: 7
text default: "none"
posts json
text size
day date: "%d %B %Y"
"""


def objects(count: int) -> str:
    """Returns globals with a list of so many objects."""
    posts = [{"title": f"Post {number}", "words": number, "tags": ["rain", "tools"]} for number in range(count)]
    return json.dumps({"posts": posts}) + "\n"


def lists() -> str:
    """Returns globals with lists of twenty numbers, texts and posts, one post, and one text."""
    posts = [
        {"title": f"Post {number}", "words": 50 * number, "author": "Ada", "day": "2026-11-27", "url": f"/posts/{number}",
         "tags": ["rain", "tools"]}
        for number in range(20)
    ]
    texts = [f"A text of some length, number {number}" for number in range(20)]
    found = {"numbers": list(range(20)), "texts": texts, "posts": posts, "post": posts[-1], "text": "A text of some length"}
    return json.dumps(found) + "\n"


def inputs(count: int) -> str:
    """Returns the inputs of the filters, of so many parts each. A number and a day have no parts."""
    found = {
        "text": " ".join(["rain"] * count),
        "code": "cmFp" * count,
        "html": "<b>rain</b> " * count,
        "lines": "rain\n" * count,
        "list": [f"word {number * 7 % count}" for number in range(count)],
        "numbers": list(range(count)),
        "posts": [{"title": f"Post {number}", "draft": number % 2 == 1} for number in range(count)],
        "number": 1250,
        "day": "2026-11-27",
    }
    return json.dumps(found) + "\n"

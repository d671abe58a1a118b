#!/usr/bin/env python3
"""Makes the recorded cases of the lexer, always the same. docs/RECORDED.md says what they are and how they are used.

    recorded_cases.py lone                      the cases for the Rust lexer and for `recorded lone`
    recorded_cases.py differences RUST OURS     the cases where the two answers part; fails if one is not explained
    recorded_cases.py stdin                     what the gate gives to `recorded`
    recorded_cases.py stdout RUST DIFFERENCES   what it has to answer
"""
import random
import re
import sys

MACROS = (
    "footnote image indexterm indexterm2 anchor audio icon kbd link pass btn menu mailto toc xref video".split()
)
DIRECTIVES = "include ifdef ifndef endif ifeval asciidorkinclude".split()
SCHEMES = "http https ftp mailto irc file".split()
DELIMITERS = "*_-+./=`"
MARKS = "\u00a0\u2007\u2018\u2019\u201c\u201d\u202f\u2060\u3000\ufeff"
# each shares its first byte, or its first two, with a mark
NEAR_MARKS = "\u00a1\u00bf\u0120\u2006\u2008\u2017\u201a\u201b\u201e\u202e\u2030\u205f\u2061\u2460\u3001\u3040\ufefe\uff00\U0001f600"


def whole_constructs():
    """Each construct of the lexer, in full."""
    yield from ["&amp;", "&#38;", "&#x2F;", "<1>", "<12>", "<.>", "<!--1-->", "<!--12-->", "<!--.-->"]
    yield from ["{a}", "{a-b_1}", "{_}", "{-}", "{-a}", "\x1bass:", "a:: b", "a::: b", "a:::: b", "a;; b", "me@ab.cd"]
    yield from ["include::x[]", "ifdef::a[]", "ifndef::a[]", "endif::a[]", "endif::[]", "ifeval::[1]"]
    yield from ["asciidorkinclude::x[]", "afootnote:[x]", "aindexterm:[x]", "https://a.b", "file:///a", "(((a)))"]
    yield from (f"{name}:x[]" for name in MACROS)
    yield from (mark * 4 for mark in DELIMITERS)
    yield from MARKS


def constructs():
    """Each construct whole, cut short, and next to what may change it."""
    for text in whole_constructs():
        yield from (text[:n] for n in range(1, len(text) + 1))
        yield from (before + text for before in ["\r", "\n", "\r\n", "\\", " ", "a"])
        yield from (text + behind for behind in ["\r", "\n", "\r\n", "\\", " "])


def characters():
    """Each byte that is a text, alone and inside a word; marks past ASCII and what resembles them."""
    for c in map(chr, range(128)):
        yield from [c, f"a{c}b"]
    for c in MARKS + NEAR_MARKS:
        yield from [c, f"a{c}b", c + c]


def delimiter_lines():
    for mark in DELIMITERS:
        for n in range(1, 8):
            for behind in ["", "\n", "\r", "\r\n", " "]:
                yield from (before + n * mark + behind for before in ["", "\n", "a"])
        yield from ["\r" + 4 * mark, "\r" + 3 * mark + "a", 4 * mark + "a", 3 * mark + "a", 2 * mark + "*" + mark]


def runs():
    for mark in "=-./() 7;:*_`":
        yield from (f"a{n * mark}b" for n in range(2, 7))
    yield from [" \t\x0b\x0c ", "\x0b\r\x0c\n", "0123456789", "1a2", "=-=-", "()()", "\r\r\n\n\r", "....."]


def references():
    yield from "&; &a; &ab; &a1; &1a; &#; &#a; &#1a; &#x; &#xg; &#X1; &#xaG; &a-b; &&ab; \\&ab; \\\\&ab; &ab &#1 &#x1".split()
    yield from "&é; &abc\u00e9; &#12345678901234567890; &a;b; &ab;; <> <a> <1 <1.> <..> <. <-1> <1a> <<1>> \\<1>".split()
    yield from "<! <!> <!- <!-- <!--> <!---> <!----> <!-1--> <!--1-> <!--1-- <!--1.--> <!--a--> <!--.-> <!--..-->".split()
    yield from ["<1 >", "< 1>", "<!-- 1-->", "<!--1 -->", "<!--1-- >", "<!--12345678901234567890-->", "<.>>", "<1><2>"]
    yield from "{} { } {a {a- {a.b} {é} {aé} {_a} {1} {a-} {{a}} {a}{b} \\{a} \\\\{a} {a}} {\\a} {--} {-_} {-a-b} \\{-a} {-".split()
    yield from ["{ a}", "{a b}", "{a\n}", "{\na}", "{-a}{b}", "x{-a}{-b}y", "a{b}c", "{-a}\n----"]


def terms():
    for marks in [n * ":" for n in range(1, 7)] + [n * ";" for n in range(1, 5)] + [":;", ";:", "::;", ";;:"]:
        for behind in ["", " ", "\t", "\n", "\r", "\x0b", "a"]:
            yield from (before + marks + behind for before in ["", "a", "\n", "link"])
    yield from ["afootnote:: b", "afootnote:::b", "http:: a", "a:: ::", "a ;; b", "é:: a", "\r:: a", "\\:: a"]


def directives():
    tails = ["", "x", "[]", "[]\n", "x[]", "[x]", " ", " x", " x[", " x[]", "\tx[]", "\nx[]", "\rx[]", "\x0bx[]", "\x0cx[]"]
    for name in DIRECTIVES:
        yield from (f"{name}::{tail}" for tail in tails)
        yield from [name, f"{name}:", f"{name}:x[]", f"{name}:::x[]", f"a{name}::x[]", f"{name}s::x[]", f"\\{name}::x[]"]
    yield from ["endif::[", "endif::[[", "endif::][", "endif::[]]", "a\nendif::[]", "a endif::[]", "ENDIF::[]", "ifdef::[]"]


def addresses():
    for scheme in SCHEMES + ["ssh", "httpx", "HTTP"]:
        yield from (scheme + tail for tail in [":", ":/", "://", "://a", ":///", ":///a", "::", ":a", ":// a"])
    for domain in ["", ".", "b", "b.", "b.c", "b.cd", "bcd", "bcde", "b..c", "....", "-._-", "é.cd", "b.cé", "b.cdé", "b_.c-1"]:
        yield from (f"a@{domain}{behind}" for behind in ["", "@", " ", ":", "@b.cd"])
    yield from ["@", "@@", "@ab.cd", "@@ab.cd", "a@@ab.cd", "a.b@cd.ef", "a-b@cd.ef", "a@b:c@de.fg", "é@ab.cd", "image@ab.cd:"]


def macros():
    """Pairs of names and a page: built-in names, plug-in names, and stems that end in two of the built-in ones."""
    for name in MACROS:
        for tail in ["", ":", "::", ":: ", ":::a", ":[]", "::x[]", "@a:"]:
            yield [], name + tail
        yield from [([], f"x{name}:a"), ([], f"{name}x:a"), ([], f"{name.upper()}:a"), ([], f"\\{name}:a")]
    for names in [[], ["foo"], ["bar", "foo"], ["fo"], ["foox"], [""], ["FOO"], ["é", "foo"], ["foo", "foo", ""]]:
        for page in ["foo:x[]", "foo::x[]", "foo:: x", "foo", "foo;x", "xfoo:x", "é:x[]", "bar:foo:x", "foo\u00e9:x"]:
            yield names, page
    for stem in ["footnote", "indexterm"]:
        for page in [f"a{stem}:[x]", f"aa{stem}:x[]", f"{stem}{stem}:[x]", f"é{stem}:[x]", f"a{stem}x:[x]", f"a{stem}2:[x]"]:
            yield from [([], page), (["a" + stem], page)]
    for name in ["endif", "include", "http", "file", "mailto", "image", "a"]:
        for page in ["::[]", "::x[]", "://a", ":///a", ":x[]", ":: x", "@b.cd:"]:
            yield [name], name + page


def random_texts():
    """Short texts over small alphabets, each aimed at a rule."""
    chance = random.Random(1)
    alphabets = [":;a \n", "<!-.>1", "&#xa;1\\", "{}-_a\\", "a@.b-", "=-\n\r a", "`*\n", "+_\n\ra", "./\n ", "\x1bas:p"]
    alphabets += ["\u00a0\u2018\u2017é\ufeff", "()=|\"'", [*DIRECTIVES, "::", "[]", " ", "\n", "x"], [*SCHEMES, ":", "/", "a"]]
    alphabets += [[*MACROS, ":", "a", "@", "."], [*whole_constructs(), "\n", " ", "a", "\\"]]
    for alphabet in alphabets:
        for _ in range(40):
            yield "".join(chance.choice(alphabet) for _ in range(chance.randint(3, 9)))


PAGES = [
    """= Delivery sheet
Weighing Office <office@winery.example>
v1.2, 2024-09-14
:doctype: article
:gross-weight: 1240

== Delivery

Grower:: Anna Mühlfeld
Variety:: Grüner Veltliner
Sugar::: 18.5 °KMW
Note;; see <<terms>>

|===
|Crate |Gross |Net

|1 |{gross-weight} kg |*1180* kg
|2 |980 kg |_930_ kg
|===

The net weight footnote:[Without the crate.] is &#8776; 2110&nbsp;kg.
""",
    """// a comment
[source,ruby]
----
require 'sinatra' <1>
get '/hi' do # <.>
  "Hello!" <!--3-->
end
----
<1> Library import

****
A side bar with `code`, ``more``, *bold*, _italic_, #mark#, ~sub~ and ^super^.
****

include::chapter-1.adoc[leveloffset=+1]
ifdef::env-github[]
image::tiger.png[Tiger, 200]
endif::[]

Press kbd:[Ctrl+C] or btn:[OK], then menu:File[Save]; see https://example.org[the site].
""",
    """* one
** two
. first
.. second
- [x] done

"`curly`" and '`single`' -- dashes --- and ... dots, (C) (TM) ((term)) (((a, b)))

NOTE: Mail me@example.org or mailto:me@example.org[me], not me@localhost.

====
Example with {counter:x}, \\{escaped} and {set}.
====

.Title
[quote, Author]
____
Text with “quotes” and ‘others’, a\u00a0hard space.
____
'''
<<<
toc::[] xref:a#b[c] link:x[y] pass:[<b>] stem:[x^2] icon:heart[] video::v.mp4[] audio::a.ogg[]
""",
]

# Pages at the limit of a text, in hex text.
LONG_PAGES = ["61*1048576", "61*1048575+0a", "3d*1048576", "0a+2d*4+0a+c3a9*524284+2020", "+61++62*0+*9+6364*2"]

# Lines that have no tokens for an answer, and the answer.
REFUSED = [
    ("lone\t\t61*1048577", "R3"),
    ("lone\t\t61*1048576+0a", "R3"),
    ("lone\t\t61*99999999999", "R3"),
    ("lone\t\t6162*524288+61", "R3"),
    ("lone\t\tff", "R4"),
    ("lone\t\tc3", "R4"),
    ("lone\t\te28098e280", "R4"),
    ("lone\t\t6", "? odd number of hexadecimal digits"),
    ("lone\t6\t61", "? odd number of hexadecimal digits"),
    ("lone\t\t6g", "? not a hexadecimal digit"),
    ("lone\t\t61 62", "? odd number of hexadecimal digits"),
    ("lone\t\t61\t62", "? odd number of hexadecimal digits"),
    ("lone\t61;62\t61", "? odd number of hexadecimal digits"),
    ("lone\t61, 6\t61", "? not a hexadecimal digit"),
    ("lone\t\t61*", "? bad count"),
    ("lone\t\t61*-1", "? bad count"),
    ("lone\t\t61*2*3", "? bad count"),
    ("lone\t\t61*18446744073709551616", "? bad count"),
    ("lone\t610a62\t61", "? a name holds LF"),
    ("lone\t61", "? a tab is missing"),
    ("lone", "? a tab is missing"),
    ("", "? a tab is missing"),
    ("\t\t61", "? unknown word"),
    ("alone\t\t61", "? unknown word"),
    ("Lone\t\t61", "? unknown word"),
]


def hexed(text):
    return text.encode().hex()


def lone_cases():
    """The lone cases as lines, each once."""
    plain = [[""], constructs(), characters(), delimiter_lines(), runs(), references(), terms(), directives(), addresses()]
    plain += [random_texts(), PAGES, (page.replace("\n", "\r\n") for page in PAGES)]
    cases = [([], page) for group in plain for page in group] + list(macros())
    lines = [f"{','.join(map(hexed, names))}\t{hexed(page)}" for names, page in cases]
    return list(dict.fromkeys(lines + ["\t" + page for page in LONG_PAGES]))


def tokens(answer):
    """The tokens of an answer: by its start, each one's kind and end."""
    parts = (token.split(":") for token in answer.split())
    return {int(start): (kind, int(end)) for kind, start, end in parts}


def explained(case, rust, ours):
    """Whether two answers part only where they are meant to: at a reference whose name begins with `-`, and at a closing `endif::[]`."""
    if "*" in case:
        return False
    page = bytes.fromhex(case.split("\t")[1])
    rust, ours = tokens(rust), tokens(ours)
    inside = set()
    for start, (kind, end) in rust.items():
        if kind == "AttrRef" and page[start + 1 : start + 2] == b"-" and ours.get(start) == ("OpenBrace", start + 1):
            inside |= set(range(start, end))
        if page[start:] == b"endif::[]" and ours.get(start) == ("Directive", start + 7):
            inside |= set(range(start, len(page)))
    return all(rust.get(place) == ours.get(place) for place in (rust.keys() | ours.keys()) - inside)


def read_lines(path):
    with open(path, newline="\n") as file:
        return file.read().split("\n")[:-1]


def differences(rust, ours):
    """The cases whose answers part, with both answers."""
    cases = lone_cases()
    assert len(cases) == len(rust) == len(ours)
    parting = [both for both in zip(cases, rust, ours) if both[1] != both[2]]
    unexplained = [both for both in parting if not explained(*both)]
    if unexplained:
        sys.exit("not explained:\n" + "\n".join("\t".join(both) for both in unexplained))
    return ["\t".join(both) for both in parting]


def expected(rust, parting):
    """The Rust's answers, with ours where they part, and those to the refused lines."""
    own = {f"{names}\t{page}": ours for names, page, _, ours in (line.split("\t") for line in parting)}
    return [own.get(case, answer) for case, answer in zip(lone_cases(), rust)] + [answer for _, answer in REFUSED]


def main(arguments):
    match arguments:
        case ["lone"]:
            lines = lone_cases()
        case ["differences", rust, ours]:
            lines = differences(read_lines(rust), read_lines(ours))
        case ["stdin"]:
            lines = ["lone\t" + case for case in lone_cases()] + [line for line, _ in REFUSED]
        case ["stdout", rust, parting]:
            lines = expected(read_lines(rust), read_lines(parting))
        case _:
            sys.exit(__doc__)
    sys.stdout.reconfigure(newline="\n")
    print("\n".join(lines))


main(sys.argv[1:])

#!/usr/bin/env python3
"""Counts the places of docs/DESIGN-PASS.md in crates/*/src and crates/*/proofs, and prints each as CRATE/FILE:LINE.

usage: count_places.py [FOLDER] [--totals]      FOLDER is the repository's top, by default the current folder

It reads the text alone: comments, strings and test modules are left out, and so are clauses, but for point 5. The same tree gives the same lines.
What it prints for a point is what has the pattern of it; the page says which of these a reader takes for no place, and what a reader finds besides.
"""

import difflib
import glob
import os
import re
import sys
from collections import defaultdict

# ---------------------------------------------------------------- reading


def blank(text, start, end):
    """The text with a part made blank; line numbers stay."""
    return text[:start] + re.sub(r"[^\n]", " ", text[start:end]) + text[end:]


def bare(text):
    """The text without comments, strings and characters (b'x' stays)."""
    out, i = [], 0
    while i < len(text):
        m = re.compile(r"//[^\n]*|/\*.*?\*/|b?\"(?:\\.|[^\"\\])*\"", re.S).match(text, i)
        if m:
            s = m.group()
            keep = '""' if s.endswith('"') else ""
            out.append(keep + re.sub(r"[^\n]", " ", s[len(keep):]))
            i = m.end()
        else:
            m = re.compile(r"b?'(?:\\.|[^'\\])'").match(text, i)
            out.append(m.group() if m else text[i])
            i = m.end() if m else i + 1
    return "".join(out)


def closing(text, start):
    """The place after the bracket that closes the one at start."""
    pairs, depth = {"(": ")", "[": "]", "{": "}"}, 0
    o, c = text[start], pairs[text[start]]
    for i in range(start, len(text)):
        depth += (text[i] == o) - (text[i] == c)
        if depth == 0:
            return i + 1
    return len(text)


def split(text, sep=","):
    """The parts of a list, at its own depth."""
    parts, depth, last = [], 0, 0
    for i, ch in enumerate(text):
        depth += (ch in "([{<") - (ch in ")]}" or (ch == ">" and text[i - 1] not in "-="))
        if ch == sep and depth == 0:
            parts.append(text[last:i])
            last = i + 1
    return [p.strip() for p in parts + [text[last:]] if p.strip()]


class Function:
    pass


class Source:
    """A file of src/: its code without clauses, its functions with theirs."""

    def __init__(self, top, path):
        crate, rest = re.search(r"crates/([^/]+)/src/(.*)$", path).groups()
        self.crate, self.name, self.is_main = crate, f"{crate}/{rest}", rest == "main.rt"
        text = bare(open(path, encoding="utf-8").read())
        while True:  # test modules
            m = re.search(r"#\[cfg\(test\)\]\s*mod \w+ \{", text)
            if not m:
                break
            text = blank(text, m.start(), closing(text, m.end() - 1))
        for m in re.finditer(r"ghost use [^;]*;", text):
            text = blank(text, m.start(), m.end())
        self.full = text
        self.functions = []
        clause = re.compile(r"\s*(requires|ensures|decreases)\s*([\w.]*)\s*\{")
        for m in re.finditer(r"(?:(pub(?:\(\w+\))?)\s+)?((?:ghost |const |unsafe |extern )*(?:\"\"\s*)?)fn (\w+)\s*(<)?", text):
            f = Function()
            f.source, f.at, f.name = self, m.start(), m.group(3)
            f.public = bool(m.group(1))
            i = m.end()
            if m.group(4):  # type parameters
                depth, i = 1, i
                while depth:
                    depth += (text[i] == "<") - (text[i] == ">" and text[i - 1] not in "-=")
                    i += 1
            i = text.index("(", i)
            end = closing(text, i)
            f.params = []
            for p in split(text[i + 1:end - 1]):
                n, _, t = p.partition(":")
                f.params.append((re.sub(r"^&?(?:'\w+ )?(?:mut )?", "", n.strip()), re.sub(r"'\w+ ", "", re.sub(r"\s+", " ", t.strip()))))
            r = re.compile(r"\s*->\s*([^{;]*?)(?=\s*(?:requires\b|ensures\b|decreases\b|where\b|\{|;))").match(text, end)
            f.result = re.sub(r"\s+", " ", r.group(1)) if r else ""
            i = r.end() if r else end
            f.head = text[m.start():i]
            f.clauses = []
            while True:
                c = clause.match(text, i)
                if not c:
                    break
                e = closing(text, c.end() - 1)
                f.clauses.append((c.group(1), re.sub(r"\s+", " ", text[c.end():e - 1]).strip(), c.start(1), e))
                i = e
            b = re.compile(r"[^{;]*([{;])").match(text, i)
            if not b:
                continue
            f.body_at = b.end(1) - 1
            f.end = closing(text, f.body_at) if b.group(1) == "{" else f.body_at + 1
            self.functions.append(f)
        code = text
        for f in self.functions:
            for _, _, s, e in f.clauses:
                code = blank(code, s, e)
        self.code = code
        for f in self.functions:
            f.body = code[f.body_at:f.end]

    def place(self, at):
        return f"{self.name}:{self.full.count(chr(10), 0, at) + 1}"


def find(tree, pattern, flags=0, within=None):
    """Each match of a pattern in the code."""
    for s in tree:
        for m in re.finditer(pattern, s.code, flags | re.M):
            if within is None or within(s, m):
                yield s.place(m.start()), re.sub(r"\s+", " ", m.group()).strip()


def functions(tree):
    for s in tree:
        yield from s.functions


def function_at(source, at):
    """The innermost function that holds a place."""
    best = None
    for f in source.functions:
        if f.at <= at < f.end and (best is None or f.at > best.at):
            best = f
    return best


def enums(tree):
    """Own enums: place, name, and the variants with what each carries."""
    for s in tree:
        for m in re.finditer(r"^(?:pub(?:\(\w+\))? )?enum (\w+)[^{]*\{", s.code, re.M):
            body = s.code[m.end():closing(s.code, m.end() - 1) - 1]
            variants = []
            for v in split(body):
                v = re.sub(r"#\[[^\]]*\]\s*", "", v)
                variants.append((re.match(r"\w+", v).group(), re.sub(r"\s+", " ", v[re.match(r"\w+", v).end():]).strip()))
            yield s, s.place(m.start()), m.group(1), variants


def structs(tree):
    for s in tree:
        for m in re.finditer(r"^(?:pub(?:\(\w+\))? )?struct (\w+)[^{;(]*\{", s.code, re.M):
            fields = []
            for v in split(s.code[m.end():closing(s.code, m.end() - 1) - 1]):
                n, _, t = re.sub(r"#\[[^\]]*\]\s*", "", v).replace("ghost ", "").replace("pub ", "").partition(":")
                fields.append((n.strip(), t.strip()))
            yield s, s.place(m.start()), m.group(1), fields


def matches(source):
    """Each match: its place, what is matched, and the arms (pattern, result)."""
    for m in re.finditer(r"\bmatch ([^{;]*?) \{", source.code):
        end = closing(source.code, m.end() - 1)
        body, arms, i = source.code[m.end():end - 1], [], 0
        while True:
            a = re.compile(r"\s*(.*?)\s*=>\s*", re.S).match(body, i)
            if not a:
                break
            j = a.end()
            if j < len(body) and body[j] == "{":
                e = closing(body, j)
            else:
                e = j
                while e < len(body) and body[e] != ",":
                    e = closing(body, e) if body[e] in "([{" else e + 1
            arms.append((re.sub(r"\s+", " ", a.group(1)), re.sub(r"\s+", " ", body[j:e]).strip()))
            i = e
            while i < len(body) and body[i] in ", \n":
                i += 1
        yield m.start(), re.sub(r"\s+", " ", m.group(1)), arms


# ---------------------------------------------------------------- point 1

FAILS = r"(Outside|Fault|Faults|Faulty|Malformed|Cut|Unknown|Stops|Failed|Bad\w+|\w+At)$"
LACKS = r"(Absent|Unlisted|Nothing|None|Refused)$"


def own_enums(tree):
    """An enum that says something or that there is nothing or a failure, and is no error of a Result."""
    errors = {e for s in tree for e in re.findall(r"Result<.*, *&?(?:\w+::)*(\w+)>", s.code)}
    for _, place, name, variants in enums(tree):
        fails = [v for v, _ in variants if re.match(FAILS, v)]
        lacks = [v for v, _ in variants if re.match(LACKS, v)]
        carries = any(p for _, p in variants)
        if len(fails) + len(lacks) < len(variants) and (fails or lacks and carries) and name not in errors:
            yield place, f"{name}: " + ", ".join(v + p for v, p in variants)


NUMBERS = r"(?:[1-7]|1[0-5]|2[1-3]|3[0-7]|90)"
TWO = r"(?:1[0-5]|2[1-3]|3[0-7]|90)"


def refusal_numbers(tree):
    """The numbers of README's table, given as an answer."""
    call = r"\b(?:stopping|stops?|Stops|Faulty|Refused|put_refusal)\((?:[^()]*, )?\b" + NUMBERS + r"\b(?=[,)])"
    for s in tree:
        if s.is_main:
            continue
        for m in re.finditer(rf"\breturn {TWO};|^ *{TWO}$|{call}|=> {NUMBERS},|\bnumber: 0,(?=\s*address: (?!0))", s.code, re.M):
            f = function_at(s, m.start())
            if f is None or f.result not in ("u32", "usize") and not re.match(r"\w+\(|number: 0", m.group()):
                continue
            if m.group().startswith("=>") and not re.search("number", f.name):
                continue
            yield s.place(m.start()), re.sub(r"\s+", " ", m.group()).strip() + f" in {f.name}"


def number_constants(tree):
    yield from find(tree, r"^(?:pub(?:\(\w+\))? )?(?:const|static) \w+: (?:u8|u16|u32|u64|usize) = [^;]*;")


def flagged(tree):
    """A bool field of a struct that is built with true or false for it and nothing (0, none, no plan) for another field."""
    for s, place, name, fields in structs(tree):
        for n, t in fields:
            if t != "bool" or all(t == "bool" for _, t in fields):
                continue
            for s2 in tree:
                m = None
                for m in re.finditer(rf"\b{name} \{{", s2.code):
                    lit = s2.code[m.end():closing(s2.code, m.end() - 1)]
                    if re.search(rf"\b{n}: (true|false)\b", lit) and re.search(r"\b\w+: (0|none\(\)|no_\w+\(\)),", lit):
                        line = int(place.rsplit(":", 1)[1])
                        at = re.compile(rf"\b{n}: bool").search(s.code, s.code.index(f"struct {name}"))
                        yield s.place(at.start()), f"{name}.{n} beside {', '.join(x for x, _ in fields if x != n)}"
                        break
                else:
                    continue
                break


SENTINELS = [
    ("8 for no register", "", r"\bregister: 8\b|\.register < 8\b"),
    ("16 for no hex digit", "", r"_ => 16,|digit\([^()]*(?:\[[^\]]*\])?\) < 16"),
    ("0 for no refusal", "", r"^ *number: 0,$(?!\s*address: (?!0))|^ *return 0;$(?=\s*\}\s*12\b)|\b(?:n|number) == 0 \{(?=\s*let (?:e|end) =)|(?:Accepted|Code)\(_\) => 0,"),
    ("an empty part for none", "", r"&\w+\[\.\.0\]|\bpart\.len\(\) == 0"),
    ("0 bytes for a refusal", "", r"\bcode: 0,|\bsize == 0\b"),
    ("the length for no place", "", r"\bi < code\.len\(\)|^    at$(?=\s*\}\s*\Z)"),
    ("100h and more for a given byte", "", r"\bcell >= 0x100\b|= 0x100 \+ byte\b|\[0x90u16; \d+\]|cell % 0x100\b"),
    ("a number of no row or no rule", "", r"\bUNLISTED\b(?! ?:)"),
    ("0 and number 0 for no site", "", r"\bstopping\(0, 0\)|\bno_plan\(\)(?! ->)"),
    ("0 for a part that is not there", "", r"^ *(?:modrm|sib|displacement|immediate): 0,$"),
    ("0 for nothing read", "", r"^ *(?:first|second): 0,$"),
    ("a bool for done or refused", "intel_hex", r"^pub fn lay\("),
    ("0 or 1 for same or other", "vector_run", r"^fn say_finding\("),
    ("the marks 1 and 2", "blockcheck", r"=> [12],(?=\s*(?:Relative::By|\}\s*\}\s*))|\bmark (?:!=|==) [02]\b"),
    ("the greatest word for none", "", r"^ *0xFFFF_FFFF$"),
]


def sentinels(tree):
    for what, crate, pattern in SENTINELS:
        for place, text in find(tree, pattern, 0, lambda s, m: not s.is_main and crate in s.crate):
            yield place, f"{what}: {text}"


def register_numbers(tree):
    """Registers as numbers in the code that knows them by name."""
    for s in tree:
        for m in re.finditer(r"\b(?<!fn )(?:(?:set_|with_)?part|part_change|(?:set_|with_)?register|whole|loads)\(", s.code):
            if s.crate != "machine" and any(re.match(r"[0-7]$", a) for a in split(s.code[m.end():closing(s.code, m.end() - 1) - 1])):
                yield s.place(m.start()), re.sub(r"\s+", " ", s.code[m.start():closing(s.code, m.end() - 1)])
    yield from find(tree, r"\bOperand::Register\([0-7]\)")
    yield from find(tree, r"\bregs\[[0-7]\]", 0, lambda s, m: s.is_main)
    for f in functions(tree):
        if f.name == "upper" and [t for _, t in f.params] == ["Size"]:
            yield f.source.place(f.at), "upper: 4, 2, 2"


def condition_numbers(tree):
    """Conditions as numbers: in an enum's variant, a parameter, an arm."""
    yield from find(tree, r"\b(?:Set|MovIf|JumpIf)\(u32\)")
    for f in functions(tree):
        if f.name in ("meets", "even", "condition_bit", "chosen") and ("n", "u32") in f.params:
            yield f.source.place(f.at), f"{f.name}(n: u32)"


def letters(tree):
    """Letters or numbers of a format that choose what is done."""
    for s in tree:
        for at, what, arms in matches(s):
            if len(arms) > 2 and sum(bool(re.match(r"(b'\w'|\d+)$", p)) for p, _ in arms) >= len(arms) - 1 and all("(" in r and "::" not in r.split("(")[0] for _, r in arms):
                yield s.place(at), f"match {what}: " + ", ".join(p for p, _ in arms)


# ---------------------------------------------------------------- point 2

KEYWORDS = set("as bool break const continue crate else enum extern false fn for if impl in let loop match mod move mut pub ref return self Self static struct trait true type unsafe use where while u8 u16 u32 u64 usize".split())


def shape(f):
    """A function without its names and numbers: each name by its first use, so that equal shapes differ in names, types and constants only."""
    text = f.source.code[f.at:f.end]
    text = text[text.index("fn " + f.name) + 3 + len(f.name):]
    out, seen = [], {}
    for t in re.findall(r"0x[\dA-Fa-f_]+|\d[\d_]*\w*|\w+|\"\"|b?'(?:\\.|[^'])'|[^\s\w]", text):
        if re.match(r"\d|b?'", t):
            out.append("0")
        elif re.match(r"\w", t) and t not in KEYWORDS:
            out.append(seen.setdefault(t, f"n{len(seen)}"))
        elif re.match(r"(u8|u16|u32|u64|usize)$", t):
            out.append("t")
        else:
            out.append(t)
    return out


def loose(f):
    """The same with all names alike, for functions that are near to each other."""
    return [("n" if re.match(r"n\d", t) else t) for t in shape(f)]


def twins(tree):
    """Functions of one shape (24 signs or more)."""
    groups = defaultdict(list)
    for f in functions(tree):
        k = tuple(shape(f))
        if len(k) >= 24 and f.source.code[f.body_at] == "{":
            groups[k].append(f)
    for g in sorted(groups.values(), key=lambda g: (g[0].source.name, g[0].at)):
        if len(g) > 1:
            for f in g:
                yield f.source.place(f.at), f.name + "  with  " + ", ".join(x.name for x in g if x is not f)


def near_twins(tree):
    """Functions of one crate that are nearly of one shape (40 signs or more, 9 of 10 alike), but for those above."""
    fs = [f for f in functions(tree) if f.source.code[f.body_at] == "{"]
    shapes = {id(f): loose(f) for f in fs}
    fs = [f for f in fs if len(shapes[id(f)]) >= 40]
    for i, f in enumerate(fs):
        for g in fs[i + 1:]:
            a, b = shapes[id(f)], shapes[id(g)]
            if f.source.crate != g.source.crate or shape(f) == shape(g) or min(len(a), len(b)) < 0.8 * max(len(a), len(b)):
                continue
            m = difflib.SequenceMatcher(None, a, b, False)
            if m.real_quick_ratio() >= 0.9 and m.quick_ratio() >= 0.9 and m.ratio() >= 0.9:
                yield f.source.place(f.at), f"{f.name}  near  {g.name} ({g.source.place(g.at)})"


def type_twins(tree):
    """Structs that have most of their fields' names in common."""
    all_of = list(structs(tree))
    for i, (s, place, name, fields) in enumerate(all_of):
        for s2, place2, name2, fields2 in all_of[i + 1:]:
            a, b = {n for n, _ in fields}, {n for n, _ in fields2}
            if len(a & b) >= 2 and len(a & b) >= 0.6 * len(a | b):
                yield place, f"{name}  with  {name2} ({place2}): {', '.join(sorted(a & b))}"


def sizes(tree):
    """Matches with an arm for each size."""
    for s in tree:
        for at, what, arms in matches(s):
            if {p for p, _ in arms} == {"Size::Byte", "Size::Word", "Size::Dword"}:
                yield s.place(at), f"match {what}: " + ", ".join(r for _, r in arms)


def byte_numbers(tree):
    """Numbers made of bytes, and bytes of numbers, by hand."""
    yield from find(tree, r"\bfn (?:wide|word|dword|pair|number_at|number|extended|low_byte|put_word|put_dword|put|two_bytes|reversed)\(",
                    0, lambda s, m: not re.search(r"vector_text|intel_hex/lib", s.name))


def layouts(tree):
    """Literals of one block's measures: where the code lies, and how long an area may be."""
    yield from find(tree, r"(?<![*/%] )\b(?:0x(?:000)?1_0000|65_?536)\b(?! \*)", 0, lambda s, m: s.crate not in ("width", "product"))


def programs(tree):
    """Programs whose code is the same."""
    groups = defaultdict(list)
    for s in tree:
        if s.is_main:
            groups[re.sub(r"\s+", " ", s.code).strip()].append(s)
    for text, g in sorted(groups.items()):
        if len(g) > 1:
            for s in g:
                yield f"{s.name}:1", f"one of {len(g)} alike"


# ---------------------------------------------------------------- point 3


def loops(tree):
    """while and loop; a while let is no place."""
    for place, text in find(tree, r"^ *(?:'\w+: )?(?:while|loop)\b[^{]*\{"):
        if not text.startswith("while let"):
            yield place, text


def ranges(tree):
    """for over a range."""
    yield from find(tree, r"^ *for \w+ in [^{]*\.\.[^{]*\{")


def listed(tree):
    """Arrays whose elements are written out by their indices, six or more."""
    for s in tree:
        for m in re.finditer(r"\[(?=\s*\w[^\[\]]*[\[(])", s.code):
            parts = split(s.code[m.end():closing(s.code, m.start()) - 1])
            if sum(bool(re.search(r"\[\d+\]|\(\w+, \d+\)$", p)) for p in parts) >= 6:
                yield s.place(m.start()), f"{len(parts)} elements: {re.sub(chr(92) + 's+', ' ', parts[1])}"


def steps(tree):
    """An index or a count that is moved on by hand, and recursion in place of a loop."""
    yield from find(tree, r"^ *\w+ [+-]= [^;]*;")
    for f in functions(tree):
        if re.search(rf"(?<![.\w:]){f.name}\(", f.body):
            yield f.source.place(f.at), f"{f.name} calls itself"


# ---------------------------------------------------------------- point 4


def number_to_enum(tree):
    """Matches from numbers to variants."""
    for s in tree:
        for at, what, arms in matches(s):
            n = sum(bool(re.match(r"(\d+|0x[\dA-F]+|_)$", p) and re.match(r"[A-Z]\w*::[A-Z]", r)) for p, r in arms)
            if n >= 2 and n == len(arms):
                yield s.place(at), f"match {what}: {n} arms"
    for f in functions(tree):
        if f.name == "even" and f.source.crate == "flags":
            yield f.source.place(f.at), "even: the condition of a number"


def number_tables(tree):
    """Matches from numbers to number constants."""
    for s in tree:
        for at, what, arms in matches(s):
            n = sum(bool(re.match(r"(0x[\dA-F]+|\d+|_|(\w+::)?[A-Z][A-Z\d_]+)$", p) and re.match(r"(\w+::)?[A-Z][A-Z\d_]+$", r)) for p, r in arms)
            if n >= 2 and n == len(arms):
                yield s.place(at), f"match {what}: {n} arms"


def old_calls(tree):
    """Methods of numbers called as functions."""
    yield from find(tree, r"\b(?:u8|u16|u32|u64|usize|f32)::(?!MAX|from|try_from|MIN)\w+\(|\bwrapping_\w+_u64\(")


def casts(tree):
    yield from find(tree, r"\bas (?:u8|u16|u32|u64|usize)\b")


def sums(tree):
    """Sums and differences modulo 2^32 or 2^8."""
    yield from find(tree, r"\blow\(\s*Size::Dword,[^;]*?[+-]|\+[^;\n]*\) % (?:0x1_0000_0000|256)\b", 0, lambda s, m: s.crate != "width")


def own_equality(tree):
    yield from find(tree, r"\bsame\(")


def two_results(tree):
    """Matches of three variants or more that give at most two different results: a test, or an arm for the others."""
    for s in tree:
        for at, what, arms in matches(s):
            variants = sum(p.count("::") for p, _ in arms)
            results = {r for _, r in arms}
            if variants >= 3 and variants == sum(len(p.split("|")) for p, _ in arms) and len(results) <= 2:
                yield s.place(at), f"match {what}: {variants} variants, {len(results)} results"


def printing(tree):
    """Text written by hand: functions that put text into a buffer or say it."""
    for f in functions(tree):
        if re.match(r"put_|say|write_|decimal_field|hex_field", f.name) and re.search(r"\bPrint\b|\b(?:out|line): &mut \[u8", f.head):
            yield f.source.place(f.at), f.name


def words(tree):
    """Conversions with a name of their own: flags and their word, a truth value, a byte."""
    for f in functions(tree):
        if f.source.crate in ("flags", "width", "machine", "grammar", "vector_run", "edges", "sangolid") and re.match(r"(pack|unpack|resulting_word|bit|wide|bits_of|xmm_of|word_of|lent|number_of|value_of)$", f.name):
            yield f.source.place(f.at), f.name
    for f in functions(tree):
        if f.source.crate == "intel_hex" and f.name in ("number_of", "value_of"):
            yield f.source.place(f.at), f.name


def copies(tree):
    """Struct literals with two fields or more copied from one value, each by its name."""
    for s in tree:
        for m in re.finditer(r"(?<![\w!])(?<!struct )(?<!enum )(?:\w+::)*[A-Z]\w* \{(?=\s*\w+\s*[:,])", s.code):
            lit = s.code[m.end():closing(s.code, m.end() - 1) - 1]
            f = function_at(s, m.start())
            if f is None:
                continue
            from_ = defaultdict(list)
            for part in split(lit):
                n, _, v = (x.strip() for x in part.partition(":"))
                v = v or n
                x = re.match(r"(\w+)\." + n + "$", v) or v == n and re.search(rf"\blet {n} = (\w+)\.{n};", f.body)
                if x:
                    from_[x.group(1)].append(n)
            for value, names in sorted(from_.items()):
                if len(names) >= 2:
                    yield s.place(m.start()), f"{m.group()[:-2]}: {', '.join(names)} of {value}"


# ---------------------------------------------------------------- point 5

def of(p, names, types=r"."):
    """Which of the parameters have one of the names and such a type."""
    return {n for n, t in p if n in names and re.search(types, t)}


GROUPS = [
    ("machine (regs, xmm, eip or next, word, a plan)", lambda p: len(of(p, {"regs", "xmm", "eip", "next", "word"}) | {n for n, t in p if re.search(r"\bPlan$", t)}) >= 2),
    ("memory (area, and constants or an address)", lambda p: bool(of(p, {"area"}, r"\[u8\]$")) and bool(of(p, {"constants", "a", "at", "eip"}))),
    ("reader (code and a place)", lambda p: bool(of(p, {"code"}, r"\[u8\]$")) and bool(of(p, {"at", "i", "read"}, "usize")) and not of(p, {"out"})),
    ("buffer (out and a place)", lambda p: bool(of(p, {"out"}, r"\[u8\]$")) and bool(of(p, {"at"}, "usize"))),
    ("record (line and a place or count in it)", lambda p: bool(of(p, {"line"}, r"\[u8\]$")) and any(t == "usize" for _, t in p)),
    ("image", lambda p: bool(of(p, {"image"}, r"\[u16\]$"))),
    ("prefixes (narrow, repeat)", lambda p: len(of(p, {"narrow", "repeat"})) == 2),
    ("code and marks", lambda p: len(of(p, {"code", "marks"})) == 2),
    ("operand (w, v or d, and a count k)", lambda p: len(of(p, {"w", "k"})) == 2 and bool(of(p, {"v", "d"}))),
]


def together(tree):
    for f in functions(tree):
        groups = [what for what, test in GROUPS if test(f.params)]
        if groups:
            yield f.source.place(f.at), f"{f.name}: " + ", ".join(groups)


def pairs(tree):
    """Two parameters, by name and type, that stand together in five signatures or more."""
    found = defaultdict(list)
    for f in functions(tree):
        ps = sorted({(n, t) for n, t in f.params if t})
        for i, a in enumerate(ps):
            for b in ps[i + 1:]:
                found[(a, b)].append(f)
    for (a, b), fs in sorted(found.items(), key=lambda x: (-len(x[1]), x[0])):
        if len(fs) >= 5:
            yield fs[0].source.place(fs[0].at), f"{a[0]}: {a[1]}, {b[0]}: {b[1]} in {len(fs)} signatures"


def facts(tree):
    """Facts of requires clauses, with each parameter named by its type, that stand in three contracts or more."""
    found = defaultdict(list)
    for f in functions(tree):
        types = {n: re.sub(r"&|mut ", "", t) for n, t in f.params}
        for kind, text, at, _ in f.clauses:
            if kind != "requires":
                continue
            for fact in re.split(r" × ", text):
                fact = re.sub(r"^\((.*)\)$", r"\1", fact.strip())
                fact = re.sub(r"\.(now|old|entry)\b", "", fact)
                fact = re.sub(r"(?<![.\w])(\w+)(?!\w)", lambda m: f"‹{types[m.group(1)]}›" if m.group(1) in types else m.group(1), fact)
                found[fact].append((f, at))
    for fact, fs in sorted(found.items(), key=lambda x: (-len(x[1]), x[0])):
        if len({id(f) for f, _ in fs}) >= 3:
            for f, at in fs:
                yield f.source.place(at), f"{fact} ({len(fs)} times): {f.name}"


def field_copies(tree):
    yield from find(tree, r"^ *let (?:mut )?\w+ = \w+\.\w+;")


# ---------------------------------------------------------------- point 6


def buffers(tree):
    """Array types and filled arrays, but for the eight registers."""
    yield from find(tree, r"\[(?:0|0u8|0u32|0x90u16|none|[a-z_]\w*|None); ?\d[\d_]*\]|\[(?:u8|u16|u32|\w+(?:<\w+>)?); ?\d[\d_]*\]", 0,
                    lambda s, m: not re.search(r"\[(u32|Xmm|0u32|zero); 8\]", m.group()))


def lengths(tree):
    """A lent buffer and a length of it or a place in it, side by side; a place in it as the result."""
    for f in functions(tree):
        lent = [n for n, t in f.params if re.search(r"&mut \[u(8|16|32)\]", t)]
        counts = [n for n, t in f.params if t == "usize"]
        if lent and counts:
            yield f.source.place(f.at), f"{f.name}: {', '.join(lent)} and {', '.join(counts)}"
    for s, place, name, fields in structs(tree):
        if any(t == "usize" for _, t in fields) and name in ("Ends", "Taken"):
            yield place, f"{name}: {', '.join(n for n, _ in fields)}"


# ---------------------------------------------------------------- point 7


def operations(tree):
    """The enums that say which operation is meant: Operation, Kind, and what they carry."""
    known = {name: " ".join(p for _, p in variants) for _, _, name, variants in enums(tree)}
    todo, names = ["Operation", "Kind"], set()
    while todo:
        n = todo.pop()
        if n in known and n not in names and n != "Size":
            names.add(n)
            todo += re.findall(r"\b[A-Z]\w+", known[n])
    return names


def switches(tree):
    names = operations(tree)
    for s in tree:
        for at, what, arms in matches(s):
            used = {e for p, _ in arms for e in re.findall(r"\b([A-Z]\w*)::", p)}
            if used & names:
                yield s.place(at), f"match {what} on {', '.join(sorted(used & names))}: {len(arms)} arms"


def flag_parameters(tree):
    """A bool parameter that chooses what is done, handed on through functions."""
    for f in functions(tree):
        for n, ty in f.params:
            if ty == "bool" and re.search("only|whole|mode", n):
                yield f.source.place(f.at), f"{f.name}({n}: bool)"


def callables(tree):
    yield from find(tree, r"\bdyn \w+|\bimpl (?:Fn|FnMut|FnOnce)\b|\bBox<|: fn\(|\[fn\(")


# ---------------------------------------------------------------- point 8


def proof_lines(top):
    total = defaultdict(lambda: [0, 0])
    for path in sorted(glob.glob(os.path.join(top, "crates/*/proofs/**/*.antt"), recursive=True)):
        crate = re.search(r"crates/([^/]+)/", path).group(1)
        total[crate][0] += 1
        total[crate][1] += open(path, encoding="utf-8").read().count("\n")
    return [(f"{c}/proofs", f"{n} files, {k} lines", k) for c, (n, k) in sorted(total.items())]


def uncited(top):
    """Lemmas and definitions of proofs/ that no other place of the repository names."""
    texts = {}
    for path in sorted(glob.glob(os.path.join(top, "crates/**/*.antt"), recursive=True) + glob.glob(os.path.join(top, "crates/**/*.rt"), recursive=True)
                       + glob.glob(os.path.join(top, "docs/**/*.md"), recursive=True) + glob.glob(os.path.join(top, "README.md"))):
        if "/out/" not in path:
            texts[path] = open(path, encoding="utf-8").read()
    count = defaultdict(int)
    for t in texts.values():
        for w in re.findall(r"[^\s(){}\[\],.;`λ→←:]+", re.sub(r"--[^\n]*", "", t)):
            count[w] += 1
    for path, t in texts.items():
        if "/proofs/" not in path or path.endswith(("Answers.antt", "Invariants.antt")):
            continue
        t = re.sub(r"--[^\n]*", "", t)
        for m in re.finditer(r"^(?:pub )?(?:abstract )?([^\s(){}\[\],.;`λ→←:]+) :", t, re.M):
            n = m.group(1)
            own = len(re.findall(rf"(?m)^(?:pub )?(?:abstract )?{re.escape(n)}(?=[\s:])", t))
            if count[n] <= own:
                yield f"{os.path.relpath(path, os.path.join(top, 'crates'))}:{t.count(chr(10), 0, m.start()) + 1}", n


def repeated(top):
    """Right sides that ten answers or more have."""
    found = defaultdict(int)
    for path in sorted(glob.glob(os.path.join(top, "crates/*/proofs/**/Answers.antt"), recursive=True)):
        for line in open(path, encoding="utf-8"):
            m = re.match(r"\s*(?:pub )?\S+(?: \S+)* = (.{12,})$", line)
            if m:
                found[m.group(1).strip()] += 1
    for text, n in sorted(found.items(), key=lambda x: (-x[1], x[0])):
        if n >= 10:
            yield "answers", f"{n} times: {text}"


# ---------------------------------------------------------------- the pages

POINTS = [
    ("1a", "own enums of the shape of Option or Result", own_enums),
    ("1b", "numbers of the table of refusals and outcomes, given as numbers", refusal_numbers),
    ("1c", "number constants", number_constants),
    ("1d", "flags with a value beside", flagged),
    ("1e", "places of values that stand for none", sentinels),
    ("1f", "registers by number", register_numbers),
    ("1g", "conditions by number", condition_numbers),
    ("1h", "letters and numbers of a format that choose", letters),
    ("2a", "functions of one shape", twins),
    ("2b", "functions nearly of one shape", near_twins),
    ("2c", "structs with the same fields", type_twins),
    ("2d", "matches with an arm for each size", sizes),
    ("2e", "numbers of bytes and bytes of numbers", byte_numbers),
    ("2f", "literals of the block's measures", layouts),
    ("2g", "programs alike", programs),
    ("3a", "while and loop", loops),
    ("3b", "for over a range", ranges),
    ("3c", "arrays written out by index", listed),
    ("3d", "indices and counts moved by hand, recursion for a loop", steps),
    ("4a", "matches from numbers to variants", number_to_enum),
    ("4b", "matches from numbers to number constants", number_tables),
    ("4c", "casts", casts),
    ("4d", "sums modulo 2^32 and the like", sums),
    ("4e", "equality of byte strings by a function", own_equality),
    ("4f", "matches of three variants or more with two results", two_results),
    ("4g", "printing by hand", printing),
    ("4h", "conversions under a name of their own", words),
    ("4i", "structs copied field by field", copies),
    ("4j", "methods of numbers called as functions", old_calls),
    ("5a", "parameters that travel together", together),
    ("5b", "facts in three contracts or more", facts),
    ("5c", "field copies", field_copies),
    ("6a", "array buffers", buffers),
    ("6b", "buffers with a length or place beside", lengths),
    ("7a", "matches on an operation", switches),
    ("7b", "bool parameters that choose what is done", flag_parameters),
    ("7c", "closures, dyn, function pointers", callables),
]


def main():
    args = [a for a in sys.argv[1:] if not a.startswith("--")]
    top = args[0] if args else "."
    tree = [Source(top, p) for p in sorted(glob.glob(os.path.join(top, "crates/*/src/**/*.rt"), recursive=True))]
    key = lambda x: (x[0].rsplit(":", 1)[0], int(x[0].rsplit(":", 1)[1]))
    show = "--totals" not in sys.argv
    fs = list(functions(tree))
    lines = sum(open(p, encoding="utf-8").read().count("\n") for p in glob.glob(os.path.join(top, "crates/*/src/**/*.rt"), recursive=True))
    print(f"src/: {len(tree)} files, {lines} lines, {len(fs)} functions, {len(list(enums(tree)))} enums, {len(list(structs(tree)))} structs")
    for number, what, rule in POINTS:
        places = list(rule(tree))
        if number not in ("2a", "5b"):
            places.sort(key=key)
        print(f"{number} {what}: {len(places)}")
        if number == "5a":
            for g, _ in GROUPS:
                print(f"   {g}: {sum(g in t for _, t in places)}")
        if number == "5b":
            print(f"   facts: {len({t.rsplit(' (', 1)[0] for _, t in places})}")
        if show:
            for place, text in places:
                print(f"  {place} {text}")
    two = list(pairs(tree))
    print(f"5d pairs of parameters in five signatures or more: {len(two)}")
    if show:
        for place, text in two:
            print(f"  {place} {text}")
    rows = proof_lines(top)
    last = [
        ("8a lines of proofs/", sum(k for _, _, k in rows), [r[:2] for r in rows]),
        ("8b names of proofs/ that nothing else names", None, list(uncited(top))),
        ("8c right sides that ten answers or more have", None, list(repeated(top))),
    ]
    for what, count, places in last:
        print(f"{what}: {len(places) if count is None else count}")
        for place, text in places if show else []:
            print(f"  {place} {text}")


main()

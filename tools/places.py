#!/usr/bin/env python3
"""Places in src/ that are written in an older form, by what their text looks like.

    python3 tools/places.py [-l]

Counts the lines of crates/*/src that match each pattern below, and with -l prints them.
For twins it lays the bodies of functions side by side, with the names of types, functions,
variables and literals taken out, and counts the functions whose shape another one has too.
The counts are candidates: docs/DESIGN-PASS.md says which of them are places.
"""
import collections
import pathlib
import re
import sys

SHOW = "-l" in sys.argv[1:]

PATTERNS = [
    ("1", "a refusal as an Option", r"-> Option<Refusal>"),
    ("1", "a Result in a Result", r"Result<Result<"),
    ("1", "a number or a flag that stands for none", r"NOBODY|let mut (found|enough)\b|^\s+(16|63)$|size_of_grant\("),
    ("1", "refused or not, as a bool", r"fn \w+\(&mut self.*-> bool"),
    ("1", "a bool beside a value", r"\(bool, "),
    ("1", "a number for a kind", r"\b(domain|timer|code): u8\b|OfDomain\(u8\)"),
    ("1", "an Option asked by its cases", r"(Some\(_\)|None) => (true|false|0)\b|(Some\(_\)|None) => None,"),
    ("3", "a loop over a range of indices", r"for \w+ in [\w(]+\.\."),
    ("3", "a loop that counts its items", r"\.enumerate\(\)"),
    ("3", "a loop that goes on by hand", r"\b(while|loop)\b.*\{$"),
    ("4", "a number of a case, by hand", r"fn (number|layer|of)\("),
    ("4", "words of a case, by hand", r"-> &'static str"),
    ("4", "equality or order, by hand", r"fn (is_closed|is_relocating|is_prepared|stands_before|is_report)\(|matches!\("),
    ("4", "a newtype for printing", r"impl.*fmt::Display for (\w+Words|Told|Expected)|^fn write_\w+<W"),
    ("5", "the list of reports with a count", r"^\s*n: usize,$|reports: &mut \[Report\], n: usize"),
    ("5", "the sizes of grants, as a bare array", r"\[u8; 64\]|size_of_grant\("),
    ("5", "the rest of a text, passed along", r"after_\w+\)? = |cut\.rest"),
    ("5", "a line's number, passed along", r"number: u64"),
    ("6", "a buffer with its length", r"^\s+count: usize,$"),
    ("6", "a sorted list searched by hand", r"fn (index_of|spot)\b"),
    ("7", "a switch on a question or a step", r"^(pub |pub\(crate\) )?enum (Which|Change|Whose|Pass|Notice)\b"),
    ("7", "a chain of tests for a name", r"if words::is\("),
]


def sources():
    for path in sorted(pathlib.Path("crates").glob("*/src/**/*.rt")):
        yield path, path.read_text().splitlines()


def in_loop(lines, at):
    """Whether a line stands in the body of a loop of its function."""
    indent = len(lines[at]) - len(lines[at].lstrip())
    for line in reversed(lines[:at]):
        if not line.strip():
            continue
        own = len(line) - len(line.lstrip())
        if own < indent:
            indent = own
            if re.match(r"\s*('\w+: )?(for|while|loop)\b", line):
                return True
            if re.match(r"\s*(pub(\(\w+\))? )?fn ", line):
                return False
    return False


def functions(lines):
    """Name and body of each function of a file."""
    at = 0
    while at < len(lines):
        begun = re.match(r"(\s*)(?:pub(?:\(\w+\))? )?(?:final )?fn (\w+)", lines[at])
        if not begun:
            at += 1
            continue
        first = at
        while at < len(lines) and not re.match(begun[1] + r"[{}]", lines[at]) and not lines[at].rstrip().endswith((" {", "{}", ";")):
            at += 1
        body = []
        at += 1
        while at < len(lines) and not re.match(begun[1] + r"\}", lines[at]):
            body.append(lines[at])
            at += 1
        yield first + 1, begun[2], "\n".join(body)
        at += 1


WORDS = {"let", "mut", "if", "else", "match", "for", "in", "while", "return", "self", "Some", "None", "Ok", "Err", "true", "false"}


def shape(body):
    body = re.sub(r"//.*", "", body)
    tokens = re.findall(r'b?"[^"]*"|b?\'[^\']*\'|\w+|[^\s\w]', body)
    kept = []
    for token in tokens:
        if re.match(r'b?["\']|\d', token):
            kept.append("1")
        elif re.match(r"\w", token) and token not in WORDS:
            kept.append("x")
        else:
            kept.append(token)
    return " ".join(kept)


def main():
    for point, what, pattern in PATTERNS:
        hits = [
            f"{path}:{i + 1}: {line.strip()}"
            for path, lines in sources()
            for i, line in enumerate(lines)
            if re.search(pattern, line) and not re.match(r"\s*(//|ensures|requires|ghost)", line)
        ]
        print(f"point {point}, {what}: {len(hits)}")
        if SHOW:
            print("".join(f"    {hit}\n" for hit in hits), end="")
    hits = [
        f"{path}:{i + 1}: {line.strip()}"
        for path, lines in sources()
        for i, line in enumerate(lines)
        if re.match(r"\s+return (?!Err).*;$", line) and in_loop(lines, i)
    ]
    print(f"point 3, a loop that searches: {len(hits)}")
    if SHOW:
        print("".join(f"    {hit}\n" for hit in hits), end="")
    shapes = collections.defaultdict(list)
    for path, lines in sources():
        if "_tests/" in str(path):
            continue
        for line, name, body in functions(lines):
            form = shape(body)
            if len(form.split()) >= 12:
                shapes[form].append(f"{path}:{line}: {name}")
    twins = [group for group in shapes.values() if len(group) > 1]
    print(f"point 2, functions of one shape: {sum(map(len, twins))} in {len(twins)} groups")
    if SHOW:
        for group in twins:
            print("".join(f"    {one}\n" for one in group))


main()

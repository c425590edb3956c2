"""Cases that are made by a rule: wrong command lines, large texts, values of Requirements, names of files."""

import os
import pathlib
import subprocess

import cases

USAGE = (pathlib.Path(__file__).parent / "cases/help/output").read_bytes()
TEXT_BYTES = 16384
MATCH = ["match", "examples/job.ad", "examples/bench.ad"]

WRONG = {
    "no-command": [],
    "empty-command": [""],
    "unknown-command": ["write", "examples/job.ad"],
    "command-in-capitals": ["CHECK", "examples/job.ad"],
    "command-begun": ["matc", "examples/job.ad", "examples/bench.ad"],
    "unknown-option": ["--graph"],
    "short-version": ["-v"],
    "version-without-dashes": ["version"],
    "help-with-argument": ["help", "check"],
    "help-option-with-argument": ["--help", "examples/job.ad"],
    "help-letter-twice": ["-h", "-h"],
    "version-with-argument": ["--version", "-"],
    "check-nothing": ["check"],
    "print-nothing": ["print"],
    "print-two": ["print", "examples/job.ad", "examples/bench.ad"],
    "match-nothing": ["match"],
    "match-one": ["match", "examples/job.ad"],
    "match-five": MATCH + ["1", "2"],
    "trace-nothing": ["trace"],
    "trace-one": ["trace", "-"],
    "trace-five": ["trace", "examples/job.ad", "examples/bench.ad", "1", "2"],
    "graph-nothing": ["graph"],
    "graph-one": ["graph", "examples/job.ad"],
    "graph-budget": ["graph", "examples/job.ad", "examples/bench.ad", "5"],
    "graph-input-twice": ["graph", "-", "-"],
    "check-input-twice": ["check", "-", "examples/job.ad", "-"],
    "match-input-twice": ["match", "-", "-"],
    "trace-input-twice": ["trace", "-", "-", "5"],
    "trace-bad-budget": ["trace", "examples/job.ad", "examples/bench.ad", "five"],
}

BUDGETS = [
    "", "-", "65536", "+1", "-1", " 1", "1 ", "1.0", "1e3", "0x10", "65535x", "4294967296",
    "18446744073709551616", "18446744073709551621", "9" * 100, "\u0661",
]  # fmt: skip

# Expressions of Requirements that are not true, and how their values are shown.
UNTRUE = [
    ("false", "false", "false"),
    ("undefined", "other.none", "undefined"),
    ("error", "1 / 0", "error"),
    ("integer", "1", "1"),
    ("negative", "-2147483647 - 1", "-2147483648"),
    ("real", "1.0", "1.0"),
    ("small-real", "0.00000025", "2.5e-7"),
    ("infinity", "-1 / 0.0", "-infinity"),
    ("not-a-number", "0 / 0.0", "not-a-number"),
    ("string", '"true"', '"true"'),
    ("escapes", r'"\"\\\n\t"', r'"\"\\\n\t"'),
]

# The steps of those that take more than one.
STEPS = {"error": 3, "negative": 4, "infinity": 4, "not-a-number": 3}


def write_cases(folder):
    """Writes each case as a folder that cases.py describes."""
    wrong = {f"usage-{name}": words for name, words in WRONG.items()}
    wrong |= {f"usage-budget-{number}": MATCH + [budget] for number, budget in enumerate(BUDGETS, 1)}
    for name, words in wrong.items():
        write(folder / name, words, errors=USAGE, status=2, given=b"[]")
    write(folder / "help-option", ["--help"], USAGE)
    write(folder / "help-letter", ["-h"], USAGE)
    write(folder / "version", ["--version"], b"classad 0.1.0\n", files={"more": b"kit %s\n" % kit()})
    write_sizes(folder)
    write_refusals(folder)
    write_prints(folder)
    write_long_trace(folder, "trace-expression-of-16384", 947, shown=True)
    write_long_trace(folder, "trace-expression-of-16385", 948, shown=False)
    write_unmatched(folder)
    write_large_graph(folder)
    write_names(folder)
    write_unreadable(folder)


def write(folder, words, output=b"", errors=b"", status=0, given=b"", files=None):
    files = {os.fsdecode(name): content for name, content in (files or {}).items()}
    files["arguments"] = b"".join(os.fsencode(word) + b"\n" for word in words)
    files |= {"output": output, "errors": errors, "status": b"%d\n" % status, "input": given}
    folder.mkdir()
    for name, content in files.items():
        (folder / name).write_bytes(content)


def kit():
    """What the Rattle kit says of itself, or that there is none."""
    try:
        said = subprocess.run(["rt", "version"], capture_output=True, check=True).stdout
    except (OSError, subprocess.CalledProcessError):
        return b"unknown"
    return said.strip()


def write_sizes(folder):
    """Texts at the bound of a text and beyond, from a file and from standard input."""
    full = b"[a = 1]".ljust(TEXT_BYTES)
    accepted = b"%s: accepted, 1 definitions, 1 nodes\n"
    refused = b"%s: refused 2 at 0: text over 16,384 bytes\n"
    files = {"full.ad": full, "over.ad": full + b" ", "large.ad": full * 10}
    output = accepted % b"full.ad" + refused % b"over.ad" + refused % b"large.ad"
    write(folder / "check-sizes", ["check", *files], output, status=1, files=files)
    write(folder / "check-full-input", ["check", "-"], accepted % b"-", given=full)
    write(folder / "check-large-input", ["check", "-"], refused % b"-", status=1, given=full * 10)
    output = refused % b"large.ad" + refused % b"-"
    write(folder / "match-too-long", ["match", "large.ad", "-"], output, status=1, given=full + b" ", files=files)


def refused(file, number, before, column, phrase, line):
    """The lines of a text refused behind the bytes `before`."""
    lines = before.count(b"\n") + 1
    margin = " " * (column - 1)
    head = f"{file}: refused {number} at {len(before)} (line {lines}, column {column}): {phrase}"
    return f"{head}\n{line}\n{margin}^\n".encode()


def write_refusals(folder):
    """Bounds that take a large text: 1,024 bytes of a string, 256 definitions, 1,024 nodes."""
    few = b"[" + b"".join(b"d%d = 1;\n" % number for number in range(256))
    nodes = b"[a = -1\n" + b"+ 1\n" * 511
    semicolon = b"[a = -1\n" + b"+ 1\n" * 510 + b'+ ";"'
    string, definitions, count = "string over 1,024 bytes", "over 256 definitions", "over 1,024 nodes"
    rows = [
        ("string-1024.ad", b'[a = "' + b"s" * 1023 + b'\\n"]', b"1 definitions, 1 nodes"),
        ("string-1025.ad", b"[a =\n", b'"' + b"s" * 1024 + b'\\n"]', 7, string),
        ("definitions-256.ad", few + b"]", b"256 definitions, 256 nodes"),
        ("definitions-257.ad", few, b"d256 = 1;\n]", 9, definitions),
        ("definition-behind-blanks.ad", few + b"\r\t \n", b"d256 = 1]", 9, definitions),
        ("nodes-1024.ad", nodes + b"]", b"1 definitions, 1024 nodes"),
        ("nodes-1025.ad", nodes, b"+ 1]", 9, count),
        ("node-of-a-definition.ad", nodes + b"; b =\n", b"1]", 9, count),
        ("node-behind-semicolon-in-string.ad", semicolon + b"\r\n", b"? 1 : 2]", 9, count),
    ]
    write_checks(folder / "check-bounds", rows)


def write_checks(folder, rows):
    """A check of files: of each its name, text and counts, or its name, the text before the place, that from the place
    on, which begins a line, number and phrase."""
    files, output = {}, b""
    for name, *row in rows:
        if len(row) == 2:
            files[name] = row[0]
            output += b"%s: accepted, %s\n" % (name.encode(), row[1])
        else:
            before, behind, number, phrase = row
            files[name] = before + behind
            output += refused(name, number, before, 1, phrase, behind.split(b"\n")[0].decode())
    write(folder, ["check", *files], output, status=1, files=files)


def write_prints(folder):
    """Prints of 16,384 bytes and of one more; the texts have no blanks and are shorter."""
    parts = [b'd%03d = "%s"' % (number, b"s" * 53) for number in range(256)]
    printed = b"[" + b"; ".join(parts) + b"]"
    text = printed.replace(b" ", b"")
    assert len(printed) == TEXT_BYTES
    write(folder / "print-16384", ["print", "-"], printed + b"\n", given=text)
    output = b"longer.ad: refused 11 at 0: printed text over 16,384 bytes\n"
    files = {"longer.ad": text.replace(b'"]', b's"]')}
    write(folder / "print-16385", ["print", "longer.ad"], output, status=1, files=files)
    output = b"longer.ad: accepted, 256 definitions, 256 nodes\n"
    write(folder / "check-print-too-long", ["check", "longer.ad"], output, files=files)


def write_long_trace(folder, name, last, shown):
    """A sum of 15 strings of 1,024 bytes and a last one; the whole sum is shown or too long."""
    lengths = [1024] * 15 + [last]
    strings = [b'"%s"' % (b"%c" % (97 + number) * length) for number, length in enumerate(lengths)]
    lines = [b"%s -> %s" % (strings[0], strings[0])]
    for number in range(1, 16):
        lines.append(b"%s -> %s" % (strings[number], strings[number]))
        lines.append(b" + ".join(strings[: number + 1]) + b" -> error")
    if not shown:
        lines[-1] = b"(printed text over 16,384 bytes) -> error"
    output = b"".join(b"%d first Requirements: %s\n" % line for line in enumerate(lines, 1))
    output += b"unmatched\nfirst Requirements is error\nsecond ad has no Requirements\n"
    output += b"first rank 0\nsecond rank 0\nsteps 31 of 31\n"
    files = {"sum.ad": b"[Requirements=" + b"+".join(strings) + b"]"}
    write(folder / name, ["trace", "sum.ad", "-"], output, status=1, given=b"[]", files=files)


def write_unmatched(folder):
    """Requirements of each kind of value that is not true, on either side, and none at all."""
    rows = [(name, f"[Requirements = {text}]", f"Requirements is {shown}") for name, text, shown in UNTRUE]
    rows.append(("missing", "[Requirement = true; Rank = Requirements]", "ad has no Requirements"))
    good = "[rEQUIREMENTS = true]"
    for name, text, said in rows:
        steps = STEPS.get(name, 1)
        for first, second, lines, count in [
            (text, good, f"first {said}\n", steps + 1),
            (good, text, f"second {said}\n", steps + 1),
            (text, text, f"first {said}\nsecond {said}\n", 2 * steps),
        ]:
            sides = "both" if first == second else "first" if first == text else "second"
            output = f"unmatched\n{lines}first rank 0\nsecond rank 0\nsteps {count} of {count}\n".encode()
            files = {"first.ad": first.encode(), "second.ad": second.encode()}
            case = folder / f"unmatched-{name}-{sides}"
            write(case, ["match", *files], output, status=1, files=files)


def write_large_graph(folder):
    """As many references as an ad can have, with none of their definitions, and the longest names."""
    sides, name, holder = [b"first", b"second"], b"Nn" * 32, b"Hh" * 32
    frame = b'  subgraph cluster_%s {\n    label="%s";\n    "%s.%s" [label="%s"];\n  }\n'
    absent = b'  subgraph cluster_%s { "%s.%s" [label="%s", style=dashed]; }\n'
    arrow = b'  "%s.%s" -> "%s.%s" [label="absent", style=dashed];\n'
    output = b"digraph classad {\n  rankdir=LR;\n  node [shape=box];\n"
    for side in sides:
        output += frame % (side, side, side, holder.lower(), holder)
    for side in sides:
        short = absent % (side, side, b"n", b"N") + arrow % (side, holder.lower(), side, b"n")
        long = absent % (side, side, name.lower(), name) + arrow % (side, holder.lower(), side, name.lower())
        output += short * 300 + long * 212
    text = b"[" + holder + b"=" + b"N+" * 300 + (name + b"+") * 211 + name + b"]"
    write(folder / "graph-large", ["graph", "both.ad", "both.ad"], output + b"}\n", files={"both.ad": text})


def write_names(folder):
    """Names of files: any bytes, the longest that there is, one longer, a long component."""
    files = {b"b\xe4d \xff.ad": b"]", "good.ad": b"[]"}
    accepted = b"good.ad: accepted, 0 definitions, 0 nodes\n"
    output = b"b\xe4d \xff.ad: refused 4 at 0 (line 1, column 1): token does not fit here\n]\n^\n" + accepted
    no_text = b": Invalid or incomplete multibyte or wide character\n"  # of the program in Rattle, whose std opens names in UTF-8 alone
    own = {"output-cli": accepted, "errors-cli": b"classad: b\xe4d \xff.ad" + no_text}
    write(folder / "name-of-any-bytes", ["check", *files], output, status=1, files=files | own)
    errors = b"classad: m\xe4\xff: No such file or directory\n"
    own = {"errors-cli": b"classad: m\xe4\xff" + no_text}
    write(folder / "missing-name-of-any-bytes", ["check", b"m\xe4\xff"], errors=errors, status=2, files=own)
    write(folder / "name-in-utf-8", ["check", "ß ☃.ad"], "ß ☃.ad: accepted, 0 definitions, 0 nodes\n".encode(), files={"ß ☃.ad": b"[]"})
    longest = "./" * 2044 + "good.ad"
    output = b"./" * 2044 + accepted
    write(folder / "name-of-4095-bytes", ["check", longest], output, files=files)
    names = ["./" * 2044 + "/good.ad", "n" * 256, "n" * 5000]
    errors = b"".join(b"classad: %s: File name too long\n" % name.encode() for name in names)
    write(folder / "names-too-long", ["check", *names], errors=errors, status=2, files=files)


def write_unreadable(folder):
    if not cases.can_be_bound():
        print("unreadable-file: skipped, since permissions do not bind root here")
        return
    errors = b"classad: secret.ad: Permission denied\n"
    case = folder / "unreadable-file"
    write(case, ["check", "secret.ad"], errors=errors, status=2, files={"secret.ad": b"[]", "bound": b""})
    (case / "secret.ad").chmod(0)

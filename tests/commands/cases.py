"""Cases of a command, and how they are run.

A case is a folder:
    arguments   one word to a line
    input       standard input, empty where this file is not there
    output      the expected standard output
    more        what a program with an exit status prints behind it, and the one without cannot
    errors      the expected standard error, empty where this file is not there
    output-cli  there where the program without an exit status prints this in place of output,
    errors-cli  and this on standard error: it opens files by names in UTF-8 alone
    status      the expected exit status
    bound       there where permissions must bind the command, even if root runs it
and the files that the command reads. The command runs in a copy of that folder, in which
`examples` is the repository's folder of that name.
"""

import difflib
import os
import pathlib
import subprocess

REPOSITORY = pathlib.Path(__file__).resolve().parents[2]
SECONDS = 60

# Starts a command of root's without what lets root read any file.
BOUND = ["setpriv", "--bounding-set=-dac_override,-dac_read_search"]


def can_be_bound():
    """Whether permissions bind a command that is run here, or can be made to."""
    if os.geteuid() != 0:
        return True
    try:
        return subprocess.run([*BOUND, "true"], capture_output=True).returncode == 0
    except FileNotFoundError:
        return False


def run_all(label, program, copies, with_status):
    """Runs the cases of a folder of copies, prints what differs and the count. Answers 0 if
    there were cases and none failed, otherwise 1."""
    folders = sorted(copies.iterdir())
    failed = 0
    for folder in folders:
        differences = run_case(program, folder, with_status)
        if differences:
            failed += 1
            print(f"failed: {folder.name}")
            print("\n".join(differences))
    print(f"{label}: {len(folders)} cases, {failed} failed")
    return 0 if folders and failed == 0 else 1


def run_case(program, folder, with_status):
    """Unified diffs of what was expected and what came; none where all is the same."""
    (folder / "examples").symlink_to(REPOSITORY / "examples")
    start = BOUND if os.geteuid() == 0 and (folder / "bound").exists() else []
    try:
        done = subprocess.run(
            [*start, os.fsencode(program), *arguments(folder)],
            input=content(folder / "input"),
            capture_output=True,
            cwd=folder,
            env={**os.environ, "LC_ALL": "C"},
            timeout=SECONDS,
        )
    except subprocess.TimeoutExpired:
        return [f"not ended after {SECONDS} seconds"]
    more = content(folder / "more") if with_status else b""
    differences = difference(folder, "output", expected(folder, "output", with_status) + more, done.stdout)
    differences += difference(folder, "errors", expected(folder, "errors", with_status), done.stderr)
    if done.returncode < 0:
        return differences + [f"ended by signal {-done.returncode}"]
    if with_status:
        status = b"%d\n" % done.returncode
        differences += difference(folder, "status", content(folder / "status"), status)
    return differences


def arguments(folder):
    return (folder / "arguments").read_bytes().split(b"\n")[:-1]


def expected(folder, part, with_status):
    """What a case expects of a part, of the program with an exit status or the one without."""
    own = folder / f"{part}-cli"
    return content(folder / part if with_status or not own.exists() else own)


def content(file):
    return file.read_bytes() if file.exists() else b""


def difference(folder, part, expected, given):
    if expected == given:
        return []
    name = f"{folder.name}/{part}"
    lines = difflib.unified_diff(shown(expected), shown(given), f"{name} expected", f"{name} given", lineterm="")
    return list(lines) or [f"{name} differs in bytes that are shown alike"]


def shown(data):
    """Lines that can be told apart on a terminal, whatever bytes they hold."""
    text = data.decode("ascii", "backslashreplace").replace("\r", "\\r").replace("\t", "\\t")
    lines = text.split("\n")
    last = lines.pop()
    return lines + [last + " (no LF at the end)"] if last else lines

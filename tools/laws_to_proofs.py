#!/usr/bin/env python3
"""Moves the laws of crates from specs/ to proofs/, where an edit of a definition is refused for the law that falls.

usage: tools/laws_to_proofs.py CRATE[:FILE,FILE..] ..

Of each CRATE specs/Laws and specs/Laws.antt become proofs/Laws and proofs/Laws.antt, and so does each FILE of specs/ (a path without
its ending, as Examples or Inner/Steps); every path that names them in crates/ follows. Statements and proofs stay as they are.
"""

import os
import re
import subprocess
import sys


def main(argv):
    moved = []
    for word in argv:
        crate, _, more = word.partition(":")
        base = os.path.join("crates", crate)
        names = [n for n in (more.split(",") if more else [])]
        if os.path.exists(f"{base}/specs/Laws.antt"):
            names.append("Laws")
        for name in names:
            for tail in ("", ".antt"):
                old, new = f"{base}/specs/{name}{tail}", f"{base}/proofs/{name}{tail}"
                if os.path.exists(old):
                    os.makedirs(os.path.dirname(new), exist_ok=True)
                    subprocess.run(["git", "mv", old, new], check=True)
            folder, _, last = name.rpartition("/")
            out = f"{base}/specs/{folder + '.antt' if folder else 'Lib.antt'}"
            text = open(out, encoding="utf-8").read()
            open(out, "w", encoding="utf-8").write(re.sub(rf"(?m)^pub mod {last}\n", "", text))
            into = f"{base}/proofs/{folder + '.antt' if folder else 'Lib.antt'}"
            have = open(into, encoding="utf-8").read() if os.path.exists(into) else ""
            open(into, "w", encoding="utf-8").write(have + f"pub mod {last}\n")
            moved.append((f"Rattle.{crate}.specs.{name.replace('/', '.')}", f"Rattle.{crate}.proofs.{name.replace('/', '.')}", base, name))
    for folder, dirs, files in os.walk("crates"):
        dirs[:] = [d for d in dirs if d != "out"]
        for f in files:
            if f.endswith((".antt", ".rt", ".edit")):
                path = os.path.join(folder, f)
                text = open(path, encoding="utf-8").read()
                to = text
                for old, new, base, name in moved:
                    to = re.sub(rf"(?<![\w.]){re.escape(old)}(?![\w'-])", new, to)
                    if f.endswith(".edit") and folder.startswith(base + "/"):
                        to = re.sub(rf"(?m)^file: specs/{name}(?=/|\.antt$)", f"file: proofs/{name}", to)
                if to != text:
                    open(path, "w", encoding="utf-8").write(to)
    return 0


if __name__ == "__main__":
    raise SystemExit(main(sys.argv[1:]))

#!/usr/bin/env python3
"""Write the impossible clauses that `rt check` asks for.

    tools/write-clauses.py CRATE [ROUNDS]

Run at the top of the repository. It runs `rt check` in crates/CRATE, takes
each line 'FILE:LINE:COL: error: `F`: write the clause `C = elim x [ ]`',
(or the several clauses listed below 'write the clauses') and writes C before
the first clause of its definition (at FILE:LINE), and checks
again until no such line is left or nothing changed. The last output of the
check stays in target/write-clauses-CRATE.log.
"""
import os
import re
import subprocess
import sys

ASKS = re.compile(r"^(\S+?):(\d+):(\d+): error: `[^`]*`: write the clause `(.*)`\s*$")

MANY = re.compile(r"^(\S+?):(\d+):(\d+): error: `[^`]*`: write the clauses\s*$")
LISTED = re.compile(r"^  (\S.* = elim \S+ \[ \])\s*$")


def short(clause, text):
    """A qualified constructor by its last word, where the file has that word."""
    def one(m):
        last = m.group(0).split(".")[-1]
        return last if re.search(r"(?<![\w.])" + re.escape(last) + r"(?![\w.])", text) else m.group(0)
    return re.sub(r"\b[A-Za-z_]\w*(?:\.[A-Za-z_]\w*)+", one, clause)


def main():
    crate = sys.argv[1]
    rounds = int(sys.argv[2]) if len(sys.argv) > 2 else 12
    folder = os.path.join("crates", crate)
    for number in range(rounds):
        ran = subprocess.run(["rt", "check"], cwd=folder, capture_output=True, text=True)
        said = ran.stdout + ran.stderr
        os.makedirs("target", exist_ok=True)
        with open(f"target/write-clauses-{crate}.log", "w") as log:
            log.write(said)
        asked = {}
        many = None
        for line in said.splitlines():
            m = ASKS.match(line)
            if line and not line.startswith(" "):
                many = MANY.match(line)
            elif many:
                c = LISTED.match(line)
                if c:
                    path = os.path.normpath(os.path.join(folder, many.group(1)))
                    asked.setdefault(path, set()).add((int(many.group(2)), c.group(1)))
            if m:
                path = os.path.normpath(os.path.join(folder, m.group(1)))
                asked.setdefault(path, set()).add((int(m.group(2)), m.group(4)))
        wrote = 0
        for path, places in asked.items():
            if not os.path.exists(path):
                print(f"{path}: not here, left")
                continue
            with open(path) as f:
                text = f.read()
            lines = text.split("\n")
            # from the bottom, so that the numbers above stay right
            for at, clause in sorted(places, reverse=True):
                clause = short(clause, text)
                name = clause.split()[0]
                k = at - 1
                while k >= 0 and not re.match(r"\s*" + re.escape(name) + r"(\s|$)", lines[k]):
                    k -= 1
                if k < 0:
                    print(f"{path}:{at}: no clause of {name} above, left: {clause}")
                    continue
                indent = re.match(r"\s*", lines[k]).group(0)
                if any(l == indent + clause for l in lines):
                    # the same clause may be asked in another place: only a
                    # neighbour counts as written already
                    if indent + clause in lines[max(0, k - 3):k + 3]:
                        print(f"{path}:{at}: stands there already, left: {clause}")
                        continue
                lines.insert(k, indent + clause)
                wrote += 1
                print(f"{path}:{at}: {clause}")
            with open(path, "w") as f:
                f.write("\n".join(lines))
        print(f"round {number + 1}: {wrote} written; rt check ended with {ran.returncode}")
        if not wrote:
            break
    errors = [l for l in said.splitlines() if ": error:" in l]
    print(f"{len(errors)} errors left (target/write-clauses-{crate}.log)")
    for l in errors:
        if "depend on" not in l and "depends on" not in l:
            print(l)


main()

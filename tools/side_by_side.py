#!/usr/bin/env python3
"""Holds what two commits promise side by side: public contracts, and public statements of specs/ and of the theorems in proofs/.

    tools/side_by_side.py BEFORE [AFTER]   AFTER is HEAD where it is not named
    tools/side_by_side.py --help           prints this

Printed are the calls, structs and enums, and then the statements, that are gone, changed or (of calls) new; a statement that stands under another
name or in another crate is said to be moved. Whether a changed one is weaker is for a reader to tell. Both commits have to be of the same spelling:
what was respelled between them is said to be gone.

Exit status: 0; 2 a wrong argument.
"""
import os
import re
import subprocess
import sys

ROOT = os.path.dirname(os.path.dirname(os.path.abspath(__file__)))
CALL = re.compile(r'^\s*pub (?:extern "C" )?fn (\w+)(.*?)^\s*\{$', re.M | re.S)
TYPE = re.compile(r"^pub (?:struct|enum) (\w+) \{(.*?)^\}", re.M | re.S)
STATEMENT = re.compile(r"^(\s*)(?:unfoldable |abbrev )?pub (?:record |data )?(\S+)(.*)$")


def git(*words):
    return subprocess.run(["git", *words], cwd=ROOT, capture_output=True, text=True, check=True).stdout


def files(commit, pattern):
    for path in git("ls-tree", "-r", "--name-only", commit).splitlines():
        if re.match(pattern, path):
            yield path.split("/")[1], git("show", "%s:%s" % (commit, path))


def plain(text):
    return re.sub(r"\s+", " ", text).strip()


def contracts(commit):
    found = {}
    for crate, text in files(commit, r"crates/[^/]+/src/.*\.rt$"):
        for name, rest in CALL.findall(text):
            found["%s::%s" % (crate, name)] = [plain(rest)]
        for name, rest in TYPE.findall(text):
            found["%s::%s { .. }" % (crate, name)] = [plain(re.sub(r"//.*", "", rest))]
    return found


def statements(commit):
    found = {}
    for crate, text in files(commit, r"crates/[^/]+/(specs/.*|proofs/[^/]+)\.antt$"):
        lines = re.sub(r"(^|\s)--.*", "", text).split("\n")
        i = 0
        while i < len(lines):
            said = STATEMENT.match(lines[i])
            i += 1
            if not said or said.group(2) == "mod":
                continue
            kind = said.group(3)
            while i < len(lines) and lines[i].strip() and len(lines[i]) - len(lines[i].lstrip()) > len(said.group(1)):
                if lines[i].strip().startswith("unfolding"):
                    break
                kind += " " + lines[i].strip()
                i += 1
            found.setdefault("%s %s" % (crate, said.group(2)), []).append(plain(kind))
    return found


def compare(what, before, after, new):
    count = lambda d: sum(map(len, d.values()))
    print("%s: %d before, %d after" % (what, count(before), count(after)))
    everywhere = {text for texts in after.values() for text in texts}
    for name in sorted(set(before) | set(after)):
        if name not in before:
            if new:
                print("new      " + name)
            continue
        for text in before[name]:
            if text in after.get(name, []):
                continue
            if name not in after:
                print("%s %s\n    %s" % ("moved   " if text in everywhere else "gone    ", name, text[:300]))
            else:
                print("changed  %s\n    %s\n    %s" % (name, text[:300], after[name][0][:300]))


def main(words):
    if words in (["--help"], ["-h"]):
        print(__doc__.strip())
        return 0
    if not 1 <= len(words) <= 2 or any(w.startswith("-") for w in words):
        print(__doc__.strip(), file=sys.stderr)
        return 2
    before, after = (words + ["HEAD"])[:2]
    try:
        git("rev-parse", "--verify", before + "^{commit}")
        git("rev-parse", "--verify", after + "^{commit}")
    except subprocess.CalledProcessError:
        print("side_by_side.py: no such commit", file=sys.stderr)
        return 2
    compare("calls and types", contracts(before), contracts(after), True)
    compare("statements", statements(before), statements(after), False)
    return 0


if __name__ == "__main__":
    sys.exit(main(sys.argv[1:]))

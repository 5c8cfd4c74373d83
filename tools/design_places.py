#!/usr/bin/env python3
"""Lists the places of each point of the design pass in crates/*/src, and counts them: `tools/design_places.py [COMMIT] [POINT]`.
Without a commit it reads the work tree. docs/DESIGN-PASS.md says what is looked for at each point, and what was found."""
import re
import subprocess
import sys
from collections import defaultdict

CALLED_BY_KIND = r"(?:mctype|kind|t|number|bar|way|phase|keep|criterion|leaf|edition|refusal|size)"
PRINTED = r"(?:put|write|say|print|show|spell|name|known|local|link|number|is_same|comes|combine|add|stopped)_?\w*"


def git(*args):
    return subprocess.run(["git", *args], check=True, capture_output=True, text=True).stdout


def sources(commit, ending):
    names = git("ls-tree", "-r", "--name-only", commit).split() if commit else git("ls-files").split()
    for name in names:
        if re.match(r"crates/\w+/(src|proofs)/", name) and name.endswith(ending):
            yield name, git("show", f"{commit}:{name}") if commit else open(name).read()


def functions(name, text):
    """Each function as (place, name, head, body), without comments."""
    lines = text.split("\n")
    for at, line in enumerate(lines):
        found = re.match(r"( *)(?:pub(?:\(crate\))? )?(?:extern \"C\" )?fn (\w+)", line)
        if not found:
            continue
        end = next((i for i in range(at, len(lines)) if lines[i].rstrip() == found[1] + "}" or lines[i].endswith(" {}")), at)
        whole = "\n".join(re.sub(r" *//.*", "", l) for l in lines[at : end + 1])
        head, _, body = whole.partition("\n" + found[1] + "{")
        if not body:
            head, _, body = whole.partition("{")
        yield f"{name}:{at + 1}", found[2], head, body


def shape(text):
    text = re.sub(r"\b(?:0x[0-9a-fA-F]+|\d+)\b", "N", text)
    keep = "fn|if|else|while|loop|for|in|match|return|let|mut|as|break|continue|pub|crate|ensures|requires|N|true|false"
    return re.sub(r"\s+", " ", re.sub(rf"\b(?!(?:{keep})\b)[A-Za-z_]\w*(?:::\w+)*\b", "I", text))


def places(commit):
    found = defaultdict(list)
    bodies, clauses, together = defaultdict(list), defaultdict(set), defaultdict(set)
    for name, text in sources(commit, ".rt"):
        for at, line in enumerate(text.split("\n"), 1):
            place, code = f"{name}:{at}", re.sub(r" *//.*", "", line)
            if re.match(r"(?:pub(?:\(crate\))? )?enum ", code):
                found["1 enums, to be read for their shape"].append((place, code.strip(" {")))
            if re.match(r"(?:pub(?:\(crate\))? )?const [A-Z_]+: u8 = ", code):
                found["1 numbers with a name for a kind"].append((place, code.strip()))
            if re.search(rf"\b{CALLED_BY_KIND} *[!=]= *\d+", code) or re.match(r" +return \d+;", code):
                found["1 kinds compared with a number, or answered as one"].append((place, code.strip()))
            if re.match(r" *while (?!let)", code) or re.match(r" *(?:'\w+: )?loop \{", code):
                found["3 loops by hand"].append((place, code.strip()))
            if re.search(r"\[\w+; *\w+(?: \* \w+)?\]", code) and not code.startswith(("use", "ghost")):
                found["6 arrays, to be read for a length beside them"].append((place, code.strip()))
        for place, function, head, body in functions(name, text):
            if body.count("\n") >= 4:
                bodies[shape(re.sub(r"^.*?fn \w+", "fn", head.split("\n    ")[0]) + body)].append((place, function))
            for clause in re.findall(r"requires(?: \w+)? \{ (.*) \}", head):
                clauses[clause].add((place, function))
            parameters = re.findall(r"(\w+): (&?(?:mut )?[\w\[\]<>']+)", head.split("\n    re")[0].split("\n    en")[0])
            for i, one in enumerate(parameters):
                for other in parameters[i + 1 :]:
                    together[(one, other)].add((place, function))
                if one[1] == "bool" or (one[0], one[1]) == ("bar", "u8"):
                    found["7 switches handed in"].append((place, f"{function}({one[0]}: {one[1]})"))
            if re.fullmatch(PRINTED, function):
                found["4 converted, compared or printed by hand, to be read"].append((place, function))
    for group in bodies.values():
        if len(group) > 1:
            found["2 functions of one shape"] += [(place, function + " with " + group[0][1]) for place, function in group[1:]]
    for clause, group in clauses.items():
        if len(group) > 2:
            found["5 facts asked by three functions or more"] += [(min(group)[0], f"{len(group)} times: {clause}")]
    for pair, group in together.items():
        if len(group) > 4:
            found["5 parameters that five functions or more have together"] += [(min(group)[0], f"{len(group)} times: {pair[0][0]}, {pair[1][0]}")]
    for name, text in sources(commit, "Answers.antt"):
        found["8 answers of functions"] += [(name, l) for l in re.findall(r"^pub (\S+) :", text, re.M)]
    return found


def main():
    commit = next((a for a in sys.argv[1:] if not a.isdigit()), "")
    point = next((a for a in sys.argv[1:] if a.isdigit() and len(a) == 1), "")
    for what, group in sorted(places(commit).items()):
        if not point:
            print(f"{len(group):5} {what}")
        elif what.startswith(point):
            print(what)
            for place, text in sorted(group):
                print(f"  {place}: {text}")


main()

#!/usr/bin/env python3
"""Counts places in the crates' src/ that are written as an older Rattle had to write them.

usage: python3 tools/places.py [COMMIT] [--list POINT]    in the repository; with no commit the files as they lie there

A count is of lines that fit a pattern, or of groups that a rule below finds: it is a yardstick to be read beside the code, and no verdict.
"""

import collections
import re
import subprocess
import sys

PATTERNS = {
    1: [
        ("a match over a number that has a kind for each", r"^\s*0( if .*)? =>"),
        ("a number that stands for an error or a refusal", r"Result<[^<>]*(<[^<>]*>)?[^<>]*, u(8|16|32|64)>|\(u64, u64\)|\bnumber: u64, place: u64|\bwhy: \(|Outcome::\w+\(\d"),
        ("a case of an enum for what there is not", r"\b(State::Refused|Node::Broken|Outcome::Memory|Outcome::Played)\b"),
        ("an answer handed on by hand in place of `?` or a method", r"Ok\((\w+)\) => Ok\(\1\)|Some\((\w+)\) => (Ok|Some)\(\2\)|Some\((\w+)\) => \4,|Err\(\w+\) => (return )?(Err|None)|None => (return )?(Err|None)\b|else \{ return (Err|None)|None => (0|false|\[0; 64\]|\w+\.len\(\)),"),
        ("a truth value beside an answer", r"Result<bool|named: \[bool"),
        ("a number answered by a function that has none to answer", r"^pub fn \w+\(\) -> u8"),
    ],
    3: [
        ("a `while` over an index or a rest", r"^\s*while (?!let Some\(\w+\) = \w+\.(next|pop)\()"),
        ("a `for` over numbers that index", r"^\s*for \w+ in \d+\.\."),
    ],
    4: [
        ("a table of texts by hand", r"-> &'static str"),
        ("a conversion by hand", r"fn (number|from_number|pair|from_pair|failure_of|outcome_of|operation|instruction_of|refused)\("),
        ("equality or a test of a kind by hand", r"fn (same_\w+|is_mark|is_shaped|is_blank|apart|optional|same)\("),
    ],
    6: [
        ("a place in a buffer worked out by hand", r"\[[^\[\]]*\b\d \* |\[\w+ \+ \d\]"),
        ("how much of a buffer is used, beside it", r"\b(at|count|len|used|depth|height|n): (usize|u16|u64),?$"),
    ],
    7: [
        ("a switch on which step to do", r"match (kind|part|part % 4|random\.below\(.*\)) \{"),
    ],
}


def files(commit):
    if commit:
        names = subprocess.run(["git", "ls-tree", "-r", "--name-only", commit], capture_output=True, text=True, check=True).stdout.split("\n")
    else:
        names = subprocess.run(["git", "ls-files", "-co", "--exclude-standard"], capture_output=True, text=True, check=True).stdout.split("\n")
    for name in sorted(set(names)):
        if re.fullmatch(r"crates/\w+/src/.*\.rt", name) and not name.startswith("crates/trials/"):
            if commit:
                text = subprocess.run(["git", "show", f"{commit}:{name}"], capture_output=True, text=True, check=True).stdout
            else:
                try:
                    text = open(name, encoding="utf-8").read()
                except FileNotFoundError:
                    continue
            yield name, text


def functions(text):
    """The signature of each function, up to its body."""
    for found in re.finditer(r"^( *)(?:pub(?:\(crate\))? )?(?:extern \"C\" )?fn (\w+)(.*?)^\1\{", text, re.S | re.M):
        yield found.group(2), found.group(3)


def facts(commit):
    """Facts that `requires` of three or more functions of a crate name, and parameters that three or more of them share three of."""
    asked, together = collections.defaultdict(set), collections.defaultdict(set)
    for name, text in files(commit):
        crate = name.split("/")[1]
        for function, head in functions(text):
            for clause in re.findall(r"^\s*requires \w* ?\{ (.*) \}$", head, re.M):
                for fact in re.split(r" × ", clause):
                    fact = re.sub(r"\.(now|old)\b", "", fact.strip("() "))
                    asked[crate, fact].add(f"{name}: {function}")
            inside = re.match(r"(?:<[^()]*>)?\((.*?)\)\s*(?:->|requires|ensures|$)", head, re.S)
            if inside:
                parameters = [re.sub(r"\s+", " ", p).strip() for p in re.split(r",\s*(?![^<\[(]*[>\])])", inside.group(1)) if ":" in p]
                for i in range(len(parameters) - 1):
                    together[crate, " · ".join(parameters[i:i + 2])].add(f"{name}: {function}")
    return [x for x in asked.items() if len(x[1]) >= 3], [x for x in together.items() if len(x[1]) >= 3]


def main():
    arguments = sys.argv[1:]
    shown = None
    if "--list" in arguments:
        at = arguments.index("--list")
        shown = int(arguments[at + 1])
        del arguments[at:at + 2]
    commit = arguments[0] if arguments else None
    sources = list(files(commit))
    for point, patterns in PATTERNS.items():
        for what, pattern in patterns:
            lines = [(name, n, line.strip()) for name, text in sources for n, line in enumerate(text.split("\n"), 1) if re.search(pattern, line) and not line.lstrip().startswith("//")]
            print(f"{point}  {len(lines):4}  {what}")
            if shown == point:
                for name, n, line in lines:
                    print(f"          {name}:{n}: {line}")
    asked, together = facts(commit)
    print(f"5  {len(asked):4}  facts that three or more functions of a crate require, in {sum(len(x[1]) for x in asked)} places")
    if shown == 5:
        for (crate, fact), places in sorted(asked):
            print(f"          {crate}: {fact}: {len(places)}")
    print(f"5  {len(together):4}  pairs of parameters that three or more functions of a crate take one beside the other, in {sum(len(x[1]) for x in together)} places")
    if shown == 5:
        for (crate, pair), places in sorted(together):
            print(f"          {crate}: {pair}: {len(places)}")


main()

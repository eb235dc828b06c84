#!/usr/bin/env python3
"""Counts, in src/ of a commit, the places that docs/DESIGN-PASS.md speaks of.

    python3 tools/design_count.py [COMMIT] [--list POINT]

With no commit it reads the files as they stand. --list prints the places of one point: 1a, 1b, 1c, 1d, 2, 3, 4, 5a, 5b, 5c, 5d, 6, 7, 8.
"""
import difflib
import itertools
import re
import subprocess
import sys

COMMANDS = {
    "1a": "a refusal told by its number and tested: code(..) == 0 or != 0",
    "1b": "a variant that only says none, done or refused, and a field that says whether the others count",
    "1c": "a number or a length answered in place of none (by the function's comment)",
    "1d": "a letter of a text written as a number",
    "2": "two functions whose bodies are alike to 85 parts of 100, numbers and the names of planes set aside",
    "3": "while and loop",
    "4": "a function that only converts, copies, exchanges, compares or takes the lesser of two",
    "5a": "two shared planes as two parameters",
    "5b": "two mutable planes as two parameters",
    "5c": "the planes of a matrix, its rows and its words as four parameters",
    "5d": "a requires, or a field of what a function asks, that says that a size or a state is in its ranges",
    "6": "an array of a fixed size in a function",
    "7": "a step chosen by a number, or a table of functions",
    "8": "a fact with its type repeated word for word in a file of answers",
}


def files(commit, pattern):
    """The texts of a commit's files whose paths match."""
    if commit:
        names = subprocess.run(["git", "ls-tree", "-r", "--name-only", commit], capture_output=True, text=True, check=True).stdout
    else:
        names = subprocess.run(["git", "ls-files"], capture_output=True, text=True, check=True).stdout
    for name in sorted(names.split("\n")):
        if not re.fullmatch(pattern, name):
            continue
        if commit:
            yield name, subprocess.run(["git", "show", f"{commit}:{name}"], capture_output=True, text=True, check=True).stdout
        else:
            with open(name, encoding="utf-8") as file:
                yield name, file.read()


def functions(text):
    """The functions of a file: their names, parameters, heads and bodies."""
    for found in re.finditer(r"(?m)^( *)(?:pub )?(?:extern \"C\" )?fn (\w+)(?:<[^(]*>)?\(", text):
        margin = found.group(1)
        start = text.find("\n" + margin + "{\n", found.end())
        end = text.find("\n" + margin + "}\n", start)
        if start < 0 or end < 0:
            continue
        head = text[found.start():start]
        depth, at = 1, found.end()
        while depth and at < len(text):
            depth += {"(": 1, ")": -1}.get(text[at], 0)
            at += 1
        yield found.group(2), re.sub(r"\s+", " ", text[found.end():at - 1]), head, text[start + len(margin) + 3:end]


def comment_before(text, name):
    found = re.search(r"((?:^ *//.*\n)+)(?: *#\[.*\n)* *(?:pub )?fn " + name + r"\b", text, re.M)
    return found.group(1) if found else ""


def count(commit):
    places = {point: [] for point in COMMANDS}
    bodies = []
    for name, text in files(commit, r"crates/\w+/src/\w+\.rt"):
        crate = name.split("/")[1]
        for line in text.split("\n"):
            if re.search(r"refusal::code\(.*\) [!=]= 0", line):
                places["1a"].append((crate, line.strip()))
            if re.match(r"^ *(Neither|Refused|Unread|Unwritten|Done|Answered)\b", line) or re.match(r"^ *pub (found|written|outcome)\b", line):
                places["1b"].append((crate, line.strip()))
            if re.search(r"(letter|byte|line\[i\]|field\[0\]|\bb) (==|<|>) \d\d?\b", line) or re.search(r"all_between\(.*\d\d", line):
                places["1d"].append((crate, line.strip()))
            if re.match(r"^ *(while|loop)\b", line):
                places["3"].append((crate, line.strip()))
            if re.search(r"\[0u?\d*(u8|u16|u64); \d+\]", line):
                places["6"].append((crate, line.strip()))
        for function, parameters, head, body in functions(text):
            where = (crate, function)
            said = comment_before(text, function)
            if re.search(r"where there is none|or the line's end|0 where they are not", said) and "-> Option" not in head:
                places["1c"].append(where)
            if re.fullmatch(r"(wide|number|tell|least|more_rows|copy_order|exchange|digit|write_bytes)", function) and function + crate != "numbercases":
                places["4"].append(where)
            shared = len(re.findall(r"\b(\w*)ones: &\[u64\], \1twos: &\[u64\]", parameters)) + len(re.findall(r"\b(\w)o: &\[u64\], \1t: &\[u64\]", parameters))
            mutable = len(re.findall(r"\b(\w*)ones: &mut \[u64\], \1twos: &mut \[u64\]", parameters)) + len(re.findall(r"\b(\w)o: &mut \[u64\], \1t: &mut \[u64\]", parameters))
            places["5a"] += [where] * shared
            places["5b"] += [where] * mutable
            if re.search(r"ones: &(mut )?\[u64\], twos: &(mut )?\[u64\], rows: usize, w: usize", parameters):
                places["5c"].append(where)
            if re.search(r"requires.*(sizes_fit z|sound held) ≡ true", head):
                places["5d"].append(where)
            plain = re.sub(r"\b(\d+|ones|twos)\b", "#", re.sub(r"\s+", " ", re.sub(r"//.*", "", body)))
            if body.count("\n") >= 4:
                bodies.append((crate + "::" + function, plain))
    for (one, a), (two, b) in itertools.combinations(bodies, 2):
        if abs(len(a) - len(b)) > 0.3 * max(len(a), len(b)):
            continue
        match = difflib.SequenceMatcher(None, a, b, autojunk=False)
        if match.real_quick_ratio() >= 0.85 and match.quick_ratio() >= 0.85 and match.ratio() >= 0.85:
            places["2"].append((one, two))
    for name, text in files(commit, r"crates/\w+/specs/\w+\.antt"):
        for line in text.split("\n"):
            if re.match(r"^ *pub \w+ : (sizes_fit z|sound held) ≡ true", line):
                places["5d"].append((name.split("/")[1], line.strip()))
    for name, text in files(commit, r"crates/\w+/proofs/.*Answers\.antt"):
        facts = re.findall(r"(?m)^ *let \w+ : (.*) =$", text)
        places["8"] += [(name, fact) for fact in set(facts) if facts.count(fact) > 1 for _ in range(facts.count(fact) - 1)]
    return places


def main():
    words = sys.argv[1:]
    listed = words[words.index("--list") + 1] if "--list" in words else None
    commits = [word for word in words if not word.startswith("--") and word != listed]
    places = count(commits[0] if commits else None)
    if listed:
        for place in places[listed]:
            print(*place)
        return
    for point, what in COMMANDS.items():
        print(f"{point:3} {len(places[point]):4}  {what}")


main()

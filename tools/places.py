#!/usr/bin/env python3
# Counts, in the crates' src/, the places of each point of docs/DESIGN-PASS.md.
#   python3 tools/places.py [--list POINT] [FOLDER]
# POINT is a name of the first column, as 1a; FOLDER is a checkout, here by default.
import collections
import pathlib
import re
import sys

arguments = sys.argv[1:]
wanted = None
if arguments[:1] == ["--list"]:
    wanted = arguments[1]
    arguments = arguments[2:]
top = pathlib.Path(arguments[0] if arguments else ".")
files = {
    str(path.relative_to(top)): path.read_text().split("\n")
    for path in sorted(top.glob("crates/*/src/**/*.rt"))
}
found = collections.defaultdict(list)


def note(point, file, line, text):
    found[point].append(f"{file}:{line + 1}: {text.strip()[:110]}")


LINES = {
    "1a own enums with a refusal or a nothing": r"^\s+(Refused\(.*\)|Nowhere|TooMany\(.*\)),$",
    "1b let-else over an own enum": r"let (mut )?[A-Z]\w*::[A-Z]\w*(\(.*\))? = .* else \{",
    "1c a refusal taken apart and put together again": r"Refused\((number|n), (place|p)\)",
    "1d a number that stands for none or no room": r"MAX_NODES < \w+ \{|<=? (NO_ROOM|NO_PLACE|NOWHERE|TOO_MANY)\b"
    r"|[!=]= (NO_PLACE|NOWHERE|NO_NUMBER)\b|return (NO_ROOM|NO_PLACE|NOWHERE|TOO_MANY)\b",
    "4a helpers that the library has": r"(?<!fn )\b(wide|least|smaller|larger|less|capped)\(",
    "4b bytes or words written to an output by hand": r"\.write_all\(&?(line|digits|buf)",
}
for file, lines in files.items():
    for number, line in enumerate(lines):
        code = line.split("//")[0]
        for point, pattern in LINES.items():
            for _ in re.finditer(pattern, code):
                note(point, file, number, line)

# 1e: families of number codes, a file each
for file, lines in files.items():
    codes = [n for n, line in enumerate(lines) if re.match(r"\s*(pub )?const [A-Z_]+: u(8|16|32) = \d+;", line)]
    if len(codes) >= 3:
        note("1e families of three or more number codes", file, codes[0], f"{len(codes)} constants")


# functions: name, first line, head, body
def functions(lines):
    number = 0
    while number < len(lines):
        started = re.match(r"(\s*)(pub )?fn (\w+)", lines[number])
        if not started or lines[number].lstrip().startswith("//"):
            number += 1
            continue
        indent = started.group(1)
        end = number
        while end < len(lines) and lines[end] != indent + "}":
            end += 1
        opened = number
        while opened < end and not re.match(indent + r"\{$|.*\) (-> .*)?\{$", lines[opened]):
            opened += 1
        yield started.group(3), number, lines[number:opened + 1], lines[opened + 1:end]
        number = end + 1


# 2: twins: bodies of five or more lines that are alike but for numbers, types, constants, paths and strings
shapes = collections.defaultdict(list)
for file, lines in files.items():
    for name, at, head, body in functions(lines):
        text = [line.strip() for line in body if line.strip() and not line.strip().startswith("//")]
        if len(text) < 5:
            continue
        shape = "\n".join(text)
        shape = re.sub(r'b?"[^"]*"', "S", shape)
        shape = re.sub(r"\b\w+::", "", shape)
        shape = re.sub(r"\b[A-Z][A-Z0-9_]*\b|\b\d+\w*\b|\bu(8|16|32|64|size)\b", "K", shape)
        shape = re.sub(r"\b[a-z]\w*(?=\()", "f", shape)
        shapes[shape].append((file, at, name))
for group in shapes.values():
    if len(group) > 1:
        for file, at, name in group:
            note("2 functions with a twin", file, at, f"{name}, one of {len(group)}")

# 3: loops that count by hand, and those that do not
for file, lines in files.items():
    for number, line in enumerate(lines):
        loop = re.match(r"(\s*)(while |loop\b)", line)
        if loop:
            end = number
            while lines[end] != loop.group(1) + "}":
                end += 1
            by_hand = any(re.match(r"\s*\w+(\.\w+)? [+-]= |\s*(\w+) = \2 [+-] ", text) for text in lines[number:end])
            note("3a loops that count by hand" if by_hand else "3b other loops by while and loop", file, number, line)
        elif re.match(r"\s*for .* in ", line):
            note("3c loops by for", file, number, line)

# 5: facts in the contracts of three or more functions, and parameters that travel together
facts = collections.defaultdict(list)
trains = collections.defaultdict(list)
for file, lines in files.items():
    for name, at, head, body in functions(lines):
        text = " ".join(line.strip() for line in head)
        for clause in re.findall(r"requires (?:\w+ )?\{ (.*?) \}(?= requires| ensures| \{|$)", text):
            for fact in re.split(r" × ", clause.replace("(", "").replace(")", "")):
                facts[fact.strip()].append((file, at, name))
        parameters = re.search(r"fn \w+(?:<.*?>)?\((.*?)\)(?: ->| requires| ensures| \{|$)", text)
        if parameters:
            names = tuple(re.findall(r"(\w+): ", parameters.group(1)))
            for size in range(3, min(len(names), 6) + 1):
                for start in range(len(names) - size + 1):
                    trains[names[start:start + size]].append((file, at, name))
for fact, places in facts.items():
    if len(places) >= 3:
        note("5a facts that three or more contracts ask for", places[0][0], places[0][1], f"{len(places)} functions: {fact}")
longest = [train for train, places in trains.items() if len(places) >= 3]
for train in longest:
    wider = [
        other for other in longest
        if len(other) > len(train) and len(trains[other]) == len(trains[train])
        and any(other[start:start + len(train)] == train for start in range(len(other)))
    ]
    if not wider:
        places = trains[train]
        note("5b parameters that travel together in three or more functions", places[0][0], places[0][1], f"{len(places)} functions: {', '.join(train)}")

# 6: a slice or an array with its length beside it
for file, lines in files.items():
    for name, at, head, body in functions(lines):
        text = " ".join(line.strip() for line in head)
        if re.search(r"\w+: &(mut )?\[[^\]]*\], (n|count|len|size|entries|rows|end): u", text):
            note("6 a buffer with a length beside it", file, at, name)

# 7: a match or a chain that chooses one of four or more functions by a number
for file, lines in files.items():
    for number, line in enumerate(lines):
        chosen = re.match(r"(\s*)(.*= )?match .* \{$", line)
        if chosen:
            end = number
            while lines[end].rstrip(";") != chosen.group(1) + "}":
                end += 1
            arms = [text for text in lines[number + 1:end] if re.match(chosen.group(1) + r"    \S.* => (\{$|[\w:.]+\()", text)]
            if len(arms) >= 4:
                note("7 a switch over four or more functions", file, number, f"{line.strip()} {len(arms)} arms")

for point in sorted(found):
    if wanted is None:
        print(f"{len(found[point]):5}  {point}")
    elif point.split()[0] == wanted:
        print("\n".join(found[point]))

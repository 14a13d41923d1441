"""Compares the table of docs/use/FROM_ALTARICA.md with tests/literature and tests/models/from."""

import glob
import os
import re
import subprocess


def check(path):
    done = subprocess.run([os.environ["ALTARICA"], "check", path], stdout=subprocess.PIPE, text=True)
    return done.stdout.strip()


def plain(text):
    return " ".join(text.split())


def read(path):
    if not os.path.isfile(path):
        return ""
    with open(path, encoding="utf-8") as it:
        return plain(it.read())


def fault(name, form, line, mended):
    old, new = f"tests/literature/{name}.alt", f"tests/models/from/{name}.alt"
    if plain(form) not in read(old):
        return f"{old} has no `{form}`"
    if check(old) != line:
        return f"{old} gets `{check(old)}` and not `{line}`"
    if plain(mended) not in read(new):
        return f"{new} has no `{mended}`"
    if not check(new).startswith("ok "):
        return f"{new} gets `{check(new)}`"
    return ""


names, section = {"node"}, ""
whole, lacking = read("tests/models/from/dataflow.alt"), []
with open("docs/use/FROM_ALTARICA.md", encoding="utf-8") as page:
    for row in page:
        section = row.strip() if row.startswith("## ") else section
        here = section == "## AltaRica Data-Flow" and re.match(r"\| (?:`[^`]*`[^|`]*)+ \| (`[^|]*) \|$", row.replace("\\|", ""))
        if here:
            lacking += [it for it in re.findall(r"`([^`]*)`", here[1]) if len(it) > 1 and it not in whole]
        cells = re.match(r"\| `(\w+)` \| `(.+?)` \| `(\w+: .+?)` \| `(.+?)` \| ", row)
        if cells:
            names.add(cells[1])
            why = fault(*cells.groups())
            print(f"failed: {cells[1]} ({why})" if why else f"passed: {cells[1]} is refused and mended as the page has it")
if not check("tests/models/from/dataflow.alt").startswith("ok "):
    lacking.append(check("tests/models/from/dataflow.alt"))
print(f"failed: tests/models/from/dataflow.alt lacks {'; '.join(lacking)}" if lacking else "passed: the forms for Data-Flow are accepted")
lost = {os.path.basename(it)[:-4] for it in glob.glob("tests/literature/*.alt")} - names
print(f"failed: the page has no row for {' '.join(sorted(lost))}" if lost else "passed: the page has each model of the literature")

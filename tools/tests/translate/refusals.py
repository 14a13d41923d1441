"""refusals.py FILE: each block of FILE is a line `> WHAT WORDS`, a text, and a line `= ANSWER`; written is the same with what
`from_altarica` answers: its status and its last line."""
import os
import re
import sys
import tempfile

sys.dont_write_bytecode = True
sys.setrecursionlimit(20000)
here = os.path.dirname(os.path.realpath(__file__))
sys.path[:0] = [here, os.path.join(here, "..", "..", "lib")]
from tool import tool


def main():
    with open(sys.argv[1], encoding="utf-8") as file:
        blocks = re.split("^> ", file.read(), flags=re.M)[1:]
    with tempfile.TemporaryDirectory() as folder:
        path = os.path.join(folder, "model")
        for block in blocks:
            head, _, text = block.partition("\n")
            text = "".join(line + "\n" for line in text.splitlines() if not line.startswith("= "))
            with open(path, "w", encoding="utf-8") as file:
                file.write(text)
            words = head[head.index("--"):].split() if "--" in head else []
            status, _, said = tool(path, *words)
            print("> %s\n%s= %d %s" % (head, text, status, said.strip().rpartition("\n")[2].replace(path, "model")))


main()

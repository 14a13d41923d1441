"""places.py MODEL..: each model at which the grammar of tools/lib and the program do not agree on syntax. ALTARICA names
the program. Models are given to it one after the other."""
import os
import subprocess
import sys

sys.dont_write_bytecode = True
sys.setrecursionlimit(20000)
sys.path.insert(0, os.path.join(os.path.dirname(os.path.realpath(__file__)), "..", "lib"))
import grammar
import tokens

for model in sys.argv[1:]:
    said = subprocess.run([os.environ["ALTARICA"], "check", model], stdout=subprocess.PIPE, check=False).stdout.decode()
    if said.startswith("size: nesting"):
        continue
    said = said.strip() if said.startswith("syntax:") else "read"
    try:
        grammar.parse(tokens.read(model))
        got = "read"
    except (grammar.SyntaxFault, tokens.LexFault) as fault:
        got = "syntax: %d:%d" % (fault.at.line, fault.at.column)
    if got != said:
        print("%s: %s, and the program says %s" % (model, got, said))

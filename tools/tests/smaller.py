"""smaller.py MODEL WORDS..: whether the gates that `draw` shows have the same value as those of `equations` at each set of
events that can be fired. Prints each set at which they differ. ALTARICA names the program."""
import itertools
import os
import random
import sys

sys.dont_write_bytecode = True
sys.path.insert(0, os.path.join(os.path.dirname(os.path.realpath(__file__)), "..", "lib"))
import command
import gates
import program
import texts

parser = command.Words().options(*command.MODEL_OPTIONS)
parser.add_argument("model")
words = parser.parse_args()
equations = texts.equations(program.ask("equations", [words.model], command.options_of(words, *command.MODEL_OPTIONS)))
trees = texts.fragment(program.ask("fragment", [words.model], command.options_of(words, "--drop", "--main")))


def original(events):
    """The values of top and conflict by the equations as they are written."""
    found = []

    def value(operand):
        if operand in ("true", "false"):
            return operand == "true"
        negated, what = operand
        return (what in events if isinstance(what, str) else found[what - 1]) != negated
    for sign, operands in equations.gates:
        found.append((all if sign == "&" else any)(value(o) for o in operands))
    return value(equations.top), value(equations.conflict)


choices = [gates.paths(t) for t in trees]
shown = list(itertools.islice(itertools.product(*choices), 4097))
if len(shown) > 4096:
    chance = random.Random(5)
    # Most failures rarely happen together, so that the sets of a few events are among them.
    shown = [[chance.choice(paths) if chance.random() < share else paths[0] for paths in choices]
             for share in (0.1, 0.2, 0.4, 1) for _ in range(1000)]

for smaller in (gates.Smaller(equations), gates.Smaller(equations, trees)):
    for choice in shown:
        events = {event for path in choice for event in path}
        known = smaller.values(events)
        if (smaller.value(smaller.top, events, known), smaller.value(smaller.conflict, events, known)) != original(events):
            print(sorted(events))

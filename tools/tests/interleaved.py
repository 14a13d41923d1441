"""interleaved.py SEED: writes a random model whose units have two state variables with their events in turn. So the trees of
modes lie across each other in the order of declaration. Not proved."""
import random
import sys

PART = """domain Level {OK, LOW, GONE}
class Part
  Level level (init = OK);
  Boolean whole (init = true);
  event wear, crack, die;
  transition
    wear: level == OK -> level := LOW;
    crack: whole -> whole := false;
    die: level == LOW -> level := GONE;
end
"""

draw = random.Random(int(sys.argv[1]))
names = ["p%d" % number for number in range(draw.randint(2, 6))]
tests = ["%s.level == %s" % (name, level) for name in names for level in ("LOW", "GONE", "GONE")] + ["not %s.whole" % name for name in names]


def condition(depth):
    if depth == 0 or draw.random() < 0.2:
        return draw.choice(tests)
    if draw.random() < 0.4:
        group = draw.sample(tests, draw.randint(2, min(5, len(tests))))
        return "(count(%s) >= %d)" % (", ".join(group), draw.randint(1, len(group)))
    return "(%s)" % draw.choice((" and ", " or ")).join(condition(depth - 1) for _ in range(draw.randint(2, 3)))


print(PART + "block All")
print("".join("  Part %s;\n" % name for name in names), end="")
print("".join("  observer Boolean o%d = %s;\n" % (number, condition(3)) for number in range(2)) + "end")

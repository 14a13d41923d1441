"""The same model with its declarations in another order has the same sets: 20 orders of each example and of 50 random models.

Shuffled are lines that follow each other and declare units, variables, clones or blocks' single-line parts. A listing is compared
as a set of sets of labels; of a conflict only that there is one is compared, since the first of several is shown."""
import os
import pathlib
import random
import re
import subprocess
import sys
import tempfile

TOP = pathlib.Path(__file__).resolve().parents[2]
DECLARES = re.compile(r"^ +[A-Z]\w* \w+(, \w+)*( \(.*\))?;$")
ORDERS, MODELS = 20, 50


def shuffled(text, draw):
    """The text with each run of declaring lines in another order."""
    lines, run = [], []
    for line in [*text.splitlines(), ""]:
        if DECLARES.match(line):
            run.append(line)
            continue
        draw.shuffle(run)
        lines += [*run, line]
        run = []
    return "\n".join(lines)


def answer(folder, text, words):
    """What `cuts` answers: its status, and the sets of its lines where it is a listing."""
    model = folder / "model.alt"
    model.write_text(text)
    done = subprocess.run([os.environ["ALTARICA"], "cuts", model, *words], stdout=subprocess.PIPE, text=True, check=False)
    if done.returncode:
        return done.returncode, done.stdout.split(":")[0]
    *cuts, count = done.stdout.splitlines()
    return done.returncode, count, frozenset(frozenset(cut[1:-1].split(", ")) for cut in cuts)


def questions():
    """For each model its name, its text, and the words that ask for each of its observers that is true or false."""
    models = [(path.stem, path.read_text()) for path in sorted((TOP / "examples").glob("*.alt"))]
    for seed in range(MODELS):
        made = subprocess.run([sys.executable, TOP / "tools/tests/random_static.py", str(seed)], stdout=subprocess.PIPE, text=True, check=True)
        models.append((f"random {seed}", made.stdout))
    for name, text in models:
        for observer in re.findall(r"observer Boolean (\w+)", text):
            yield name, text, ["--observer", observer]


def main():
    with tempfile.TemporaryDirectory() as name:
        folder, asked, listed, differ = pathlib.Path(name), 0, 0, []
        for what, text, words in questions():
            wanted = answer(folder, text, words)
            listed += not wanted[0]
            draw = random.Random(what)
            for _ in range(ORDERS):
                asked += 1
                if answer(folder, shuffled(text, draw), words) != wanted:
                    differ.append(what)
        told = f"{asked} orders of declaration, {listed} of the models with listings, have the sets of the order as written"
        print(f"failed: {told} ({len(differ)} differ: {', '.join(sorted(set(differ)))})" if differ or listed < MODELS // 2 else f"passed: {told}")


main()

"""The causes of words that are no command, of files that are not read, and of sizes. Not proved."""
import os
import re

from asked import Note, ProgramWords, near, raw
from refusals import FILES, NEED_OBSERVER, OPTIONS


def usage(words):
    """Which word makes no command."""
    words = list(map(raw, words))
    try:
        found = ProgramWords(words)
    except ValueError as error:
        return "`%s` is no option, or lacks what it has to name" % error
    if not found.others:
        return "there is no command: it is one of %s" % ", ".join(FILES)
    command, files = found.others[0], found.others[1:]
    if found.options.get("--drop", "").endswith(","):
        return "the paths of --drop are joined by commas, without spaces: `%s` ends before the next one" % found.options["--drop"]
    if command not in FILES:
        return "`%s` is no command%s" % (command, near(command, FILES))
    if command == "make":
        return "`make` takes one number, from 1 to 200 without leading zeros, and no option"
    if len(files) != FILES[command]:
        return "`%s` takes %s" % (command, "one file, the model" if FILES[command] == 1 else
                                 "two files, the model and the %s" % ("list" if command == "checkcuts" else "script"))
    for option in found.options:
        if option not in OPTIONS[command].split() + ["--main"]:
            return "`%s` takes no `%s`" % (command, option)
    if command in NEED_OBSERVER and "--observer" not in found.options:
        return "`%s` needs --observer" % command
    order = found.options.get("--max-order", "1")
    if not (re.fullmatch("[1-9][0-9]{0,3}", order) and int(order) <= 1000):
        return "--max-order is the largest number of events of a cut, from 1 to 1000 without leading zeros"
    names = [w.partition("=")[0] for w in words]
    twice = [n for n in found.options if names.count(n) > 1]
    if twice:
        return "`%s` is given twice" % twice[0]
    return "a number or a value is not written as it has to be: --nodes is from 1 to 16777216 without leading zeros"


def unread(asked, which):
    name = asked.model if which == "model" else asked.script
    if not os.path.exists(name):
        return Note(name, None, None, "read: %s" % which, "there is no file of this name%s" % near_file(name))
    if os.path.isdir(name):
        return Note(name, None, None, "read: %s" % which, "this is a folder")
    if not os.access(name, os.R_OK):
        return Note(name, None, None, "read: %s" % which, "this file may not be read")
    return Note(name, None, None, "read: %s" % which, None)


def near_file(name):
    folder = os.path.dirname(name) or "."
    return near(raw(os.path.basename(name)), map(raw, os.listdir(folder))) if os.path.isdir(folder) else ""

"""open_calls.py: calls to the workbench that are none of its page get nothing, and those of the page get what the program says.
Without a browser. ALTARICA names the program."""
import json
import os
import signal
import stat
import subprocess
import sys
import tempfile
import time
from concurrent.futures import ThreadPoolExecutor

sys.dont_write_bytecode = True
from served import JSON, Served, point

RING = ("examples/ring.alt", "--observer", "south_is_deaf", "--drop", "north.mend,east.mend,south.mend,west.mend")
STEPS = {"steps": ["north.fail"]}


def refused_calls(it):
    """Calls that are refused, by what they are; each with the statuses that it may get."""
    other, wrong = "http://evil.example", "x" + it.token[1:]
    yield "no token", it.call("GET", "/"), (404,)
    yield "no token, a part of the page", it.call("GET", "/state.js"), (404,)
    yield "a wrong token", it.call("GET", "/%s/model" % wrong), (404,)
    yield "a wrong token, a call", it.call("POST", "/%s/run" % wrong, json.dumps(STEPS).encode(), Content_Type=JSON, Origin=it.own), (404,)
    yield "a part of the token", it.call("GET", "/%s/model" % it.token[:-1]), (404,)
    yield "the host of another name, as by rebinding", it.get("model", Host="evil.example:%d" % it.port), (421,)
    yield "localhost by name", it.get("model", Host="localhost:%d" % it.port), (421,)
    yield "no host", it.get("model", Host=None), (421, 400)
    yield "another port's host", it.get("model", Host="127.0.0.1:1"), (421,)
    yield "another origin", it.get("model", Origin=other), (403,)
    yield "the origin null", it.get("model", Origin="null"), (403,)
    yield "the origin of another port", it.get("model", Origin="http://127.0.0.1:1"), (403,)
    yield "another site", it.get("model", Sec_Fetch_Site="cross-site"), (403,)
    yield "the same site at another port", it.get("model", Sec_Fetch_Site="same-site"), (403,)
    yield "another site that visits the model", it.get("model", Sec_Fetch_Site="cross-site", Sec_Fetch_Mode="navigate", Sec_Fetch_Dest="document"), (403,)
    yield "another site that has the page in a frame", it.get("", Sec_Fetch_Site="cross-site", Sec_Fetch_Mode="navigate", Sec_Fetch_Dest="iframe"), (403,)
    yield "a call without an origin", it.post("run", STEPS, Origin=None), (403,)
    yield "a call from another origin", it.post("run", STEPS, Origin=other), (403,)
    yield "a call that is no JSON by its kind", it.post("run", STEPS, Content_Type="text/plain"), (403,)
    yield "a call as a form", it.post("run", STEPS, Content_Type="application/x-www-form-urlencoded"), (403,)
    yield "a call without a kind", it.post("run", STEPS, Content_Type=None), (403,)
    yield "a call that is no JSON", it.post("run", b"{"), (400,)
    yield "a call of no map", it.post("run", [1]), (400,)
    yield "JSON that is deep", it.post("run", b"[" * 200000), (400,)
    yield "a label with a line feed", it.post("run", {"steps": ["north.fail\nshow"]}), (400,)
    yield "a label with a carriage return", it.post("run", {"steps": ["north.fail\r"]}), (400,)
    yield "a label that is a command", it.post("run", {"steps": ["show"]}), (400,)
    yield "steps that are a text", it.post("run", {"steps": "north.fail"}), (400,)
    yield "steps that are none", it.post("run", {}), (400,)
    yield "too many steps", it.post("run", {"steps": ["north.fail"] * 2001}), (400,)
    yield "a moment behind the last", it.post("run", {"steps": [], "at": 5}), (400,)
    yield "a moment that is a truth value", it.post("run", {"steps": [], "at": True}), (400,)
    yield "a variable that is none", it.post("why", {"steps": [], "variables": [10 ** 6]}), (400,)
    yield "a variable by its name", it.post("why", {"steps": [], "variables": ["north.hears"]}), (400,)
    yield "too many variables", it.post("why", {"steps": [], "variables": [0] * 1000}), (400,)
    yield "a body that is too large", it.post("run", b"", Content_Length="99999999"), (413,)
    yield "a body of a negative length", it.post("run", b"", Content_Length="-1"), (413,)
    yield "a body in pieces", it.post("run", b"", Transfer_Encoding="chunked"), (413,)
    yield "another path", it.get("../../etc/passwd"), (404,)
    yield "the path of a file", it.get("/etc/passwd"), (404,)
    yield "a source of the server", it.get("server.py"), (404,)
    yield "a unit that is none", it.get("picture?root=99999"), (400,)
    yield "a unit by its name", it.get("picture?root=north"), (400,)
    yield "a number that is none", it.get("cuts?first=x"), (400,)
    yield "a number in other signs", it.get("cuts?first=%D9%A1"), (400,)
    yield "a call by GET", it.get("run"), (404,)
    yield "PUT", it.call("PUT", "/%s/run" % it.token), (501,)
    yield "OPTIONS from another origin", it.call("OPTIONS", "/%s/run" % it.token, Origin=other), (501,)


def is_safe(answer):
    """Whether an answer lets no other page read it, and shows nothing of the inside."""
    status, heads, body = answer
    names = {name.lower() for name in heads}
    return not any(name.startswith("access-control") for name in names) and b"Traceback" not in body and b"/tmp" not in body and (
        "content-security-policy" in names and "Python" not in heads.get("Server", ""))


def refusals(it):
    for what, answer, statuses in refused_calls(it):
        point("refused: " + what, answer[0] in statuses and is_safe(answer) and it.token.encode() not in answer[2], (answer[0], answer[2][:80]))
    page = it.get("")
    policy = page[1].get("Content-Security-Policy", "")
    point("the page has its policy", page[0] == 200 and "default-src 'none'" in policy and "trusted-types 'none'" in policy and "unsafe" not in policy, policy)
    visited = it.get("", Sec_Fetch_Site="cross-site", Sec_Fetch_Mode="navigate", Sec_Fetch_Dest="document")
    point("the page can be visited by a link", visited[0] == 200)
    point("strange units of a picture are left out", it.get("picture?closed=99999,1&opened=")[0] in (200, 501))
    own = subprocess.run(["sh", "-c", "cat /proc/net/tcp /proc/net/tcp6"], stdout=subprocess.PIPE, check=False).stdout.decode()
    heard = [line.split()[1] for line in own.splitlines() if line.split()[1].endswith(":%04X" % it.port) and line.split()[3] == "0A"]
    point("it listens on 127.0.0.1 alone", heard == ["0100007F:%04X" % it.port], heard)


def many(it):
    """Many calls at once, and connections that say nothing."""
    with ThreadPoolExecutor(24) as pool:
        answers = list(pool.map(lambda _: it.post("run", STEPS)[0], range(48)))
    point("many calls at once are answered", answers == [200] * 48, answers)


def answers(it):
    """By hand, on the ring: what the failure of the north station changes, and why the south station hears."""
    model = it.asked("model")
    names = [one[0] for one in model["variables"]] + [one[0] for one in model["observers"]]
    run = it.asked("run", {"steps": ["lose_head_end"], "at": 1})
    changed = {names[number]: value for number, value in run["moments"][1]}
    point("a step has the values that it changes", changed["head_end"] == "false" and changed["south_is_deaf"] == "true" and len(changed) == 14, changed)
    labels = [way[0] for way in model["ways"]]
    point("what can be fired behind it", "lose_head_end" not in [labels[n] for n in run["enabled"]] and len(run["enabled"]) == 8, run["enabled"])
    south = names.index("south.hears")
    why = it.asked("why", {"steps": [], "variables": [south]})["reasons"][0]
    named = [names[number] for number in why["from"]]
    # Both neighbours hear in the first round, so the station hears from both sides.
    point("why a station hears", "south.works" in named and why["given"][0]["row"] == 12, why)
    for _ in range(100):
        cuts = it.asked("cuts?most=3")
        if cuts["state"] != "running":
            break
        time.sleep(0.1)
    point("the cut sets with the fewest events first", (cuts["count"], cuts["sizes"], [cut for _, cut in cuts["cuts"]]) == (
        12, [[1, 3], [2, 9]], [["lose_head_end"], ["north.fail"], ["south.fail"]]), cuts)
    point("those with some words", it.asked("cuts?text=east.fail+cut")["found"] == 2)
    point("those of two events", it.asked("cuts?size=2")["found"] == 9)


def file_that_changes():
    with tempfile.TemporaryDirectory() as folder:
        path = os.path.join(folder, "m.alt")

        def put(more):
            with open(path, "w", encoding="ascii") as file:
                file.write("block M\n  Boolean ok (init = true);\n  event fail;\n  transition fail: ok -> ok := false;\n%send\n" % more)
        put("")
        with Served(path) as it:
            point("a model without an observer has no cut sets", it.asked("cuts")["state"] == "off")
            before = it.asked("run", {"steps": []})["changed"]
            put("  observer Boolean lost = not ok;\n")
            point("a file that changes is said", (before, it.asked("run", {"steps": []})["changed"]) == (False, True))
            point("and loaded when it is asked for", it.asked("reload", {}) == {} and len(it.asked("model")["observers"]) == 1)
            put("  observer Boolean lost = not\n")
            status, _, body = it.post("reload", {})
            point("a text that is refused leaves the old one", status == 409 and b"syntax" in body and len(it.asked("model")["observers"]) == 1, body)


def hostile_refusal():
    """The line of the text in a refusal shows signs that would turn it around by their numbers."""
    with tempfile.TemporaryDirectory() as folder:
        path = os.path.join(folder, "m.alt")
        with open(path, "wb") as file:
            file.write(b"block M\n  Boolean ok (init = true);\n  event fail, mend;\n  transition\n    fail: ok -> ok := false;\n"
                       b"    mend: not ok -> ok := true; // \xe2\x80\xae<b>\xe2\x81\xa6\x1b[31m\n  observer Boolean lost = not ok;\nend\n")
        with Served(path, "--observer", "lost") as it:
            for _ in range(200):
                cuts = it.asked("cuts")
                if cuts.get("is_whole"):
                    break
                time.sleep(0.1)
            why = cuts.get("why", "")
            point("a refusal has its place and cause, and no sign that turns a line around", cuts["state"] == "refused" and "S6 at ok" in why and
                  "202e" in why and all(c.isprintable() or c == "\n" for c in why) and "/tmp" not in why, why)


def ends():
    """What ends it, and what it leaves."""
    with tempfile.TemporaryDirectory() as folder:
        for name in ("SIGINT", "SIGTERM", "SIGHUP"):
            process = subprocess.Popen([sys.executable, "tools/open", *RING], stdout=subprocess.PIPE, stderr=subprocess.DEVNULL,
                                       env={**os.environ, "TMPDIR": folder})
            process.stdout.readline()
            made = os.listdir(folder)
            kinds = [stat.S_IMODE(os.stat(os.path.join(folder, one)).st_mode) for one in made]
            process.send_signal(getattr(signal, name))
            process.stdout.close()
            point("%s ends it, with status 0 and nothing left" % name, (process.wait(20), os.listdir(folder), kinds) == (0, [], [0o700]), (process.returncode, os.listdir(folder), kinds))
    idle = subprocess.run([sys.executable, "tools/open", *RING, "--idle", "0.01"], stdout=subprocess.PIPE, stderr=subprocess.DEVNULL, check=False, timeout=60)
    point("--idle ends it", idle.returncode == 0)


with Served(*RING) as served:
    refusals(served)
    many(served)
    answers(served)
file_that_changes()
hostile_refusal()
ends()

"""open_page.py: the workbench in Chromium: clicks of an event, a reason and a cut set, keys, random walks against `replay`, a
hostile model, a phone, and the file of --browser. ALTARICA names the program."""
import json
import os
import random
import re
import subprocess
import sys
import tempfile

sys.dont_write_bytecode = True
from browser import Browser
from served import Served, point

PLANTS = {
    "ring": ["examples/ring.alt", "--observer", "south_is_deaf", "--drop", "north.mend,east.mend,south.mend,west.mend"],
    "brake": ["examples/brake.alt", "--observer", "too_weak"],
    "hydraulic": ["examples/hydraulic.alt", "--observer", "no_brakes", "--drop", "engine_pump.wear,electric_pump.wear"],
    "aircraft": ["tests/models/howto/aircraft.alt", "--observer", "pitch_lost"],
}
WALKED = {**PLANTS, "repair": ["examples/repair.alt"], "supply": ["examples/supply.alt"], "bus": ["examples/bus.alt"]}
DRAWN = "!!document.querySelector('#picture svg')"
HOSTILE = b"""// </script><script>alert(1)</script> \xe2\x80\xae esrever \xff\x00
class __proto__
  Boolean constructor (init = true); Boolean toString (reset = false);
  event hasOwnProperty;
  transition hasOwnProperty: constructor -> constructor := false;
  assertion toString := constructor; // <img src=x onerror=alert(2)> \xe2\x80\xae]]></svg><script>alert(3)</script>\x1b[31m
end
block __defineGetter__
  __proto__ __proto__, valueOf, top, topvalue, n0, v0, a_top, picture;
  observer Boolean length = not __proto__.toString;
  observer Boolean not_any = not valueOf.toString and not top.toString;
end
"""
random.seed(11)


def errors(browser):
    """The errors of the page, but for calls of a page before it to a workbench that has ended."""
    return [one for one in browser.errors() if "ERR_CONNECTION_REFUSED" not in one]


def clicks(browser, name, words):
    """An event, a reason and a cut set, each by the mouse."""
    with Served(*words) as it:
        browser.visit(it.address)
        browser.until(DRAWN + " && !!document.querySelector('.cut')")
        number, label = browser.js("[[...enabled][0], labels[[...enabled][0]]]")
        browser.click("#a_f%d" % number)
        browser.until("now === 1")
        point("%s: a click on an event in the picture fires it" % name, browser.js("steps[0]") == label and browser.js("changed.size > 0"))
        point("%s: what it changes is marked" % name, browser.js("!!document.querySelector('#picture .changed')") and browser.js(
            "document.querySelector('#a_f%d').classList.contains('cannot')" % number))
        flow = browser.js("[...changed.keys()].find(n => !isObserver(n) && !isState(n)) ?? model.variables.findIndex(v => !v[1])")
        browser.click("#a_v%d" % flow)
        browser.until("document.querySelector('#why summary')?.textContent.startsWith(nameOf(%d) + ' = ')" % flow)
        point("%s: a click on a value shows its reason" % name, re.search("is given by|reset value", browser.js("at('why').textContent")))
        point("%s: with the line of the text" % name, re.search("line [0-9]+: ", browser.js("at('why').textContent")))
        browser.js("tab('cuts'); [...document.querySelectorAll('.cut')].at(-1).id = 'last_cut'")
        browser.click("#last_cut")
        browser.until("cutNumber > 0 && steps.length > 0 && now === steps.length && !playing")
        point("%s: a click on a cut set plays it, and the observer is reached" % name, browser.js("isReached()"))
        browser.js("document.activeElement.blur()")
        browser.key("ArrowLeft")
        browser.until("now === steps.length - 1")
        point("%s: one step before it is not reached" % name, not browser.js("isReached()"))
        keys(browser, name)
    wrong = errors(browser)
    point("%s: the page has no error" % name, not wrong, wrong)


def keys(browser, name):
    """The keys."""
    browser.key("End")
    browser.until("now === steps.length")
    browser.key("Home")
    browser.until("now === 0")
    browser.key("f")
    browser.key("/")
    browser.until("document.activeElement.id === 'find_fire'")
    last = browser.js("labels[[...enabled].at(-1)]")
    browser.write(last)
    browser.until("document.querySelectorAll('#list_fire button').length === 1")
    browser.key("Enter")
    browser.until("now === 1")
    point("%s: Enter fires the only hit of a search" % name, browser.js("steps[0]") == last)
    browser.js("document.activeElement.blur()")
    browser.key("p")
    before = browser.js("document.activeElement.getAttribute('aria-label')")
    browser.key("ArrowDown")
    point("%s: the arrow keys go in the picture" % name, before and before != browser.js("document.activeElement.getAttribute('aria-label')"))
    browser.js("document.activeElement.blur()")
    browser.key("c")
    browser.key("/")
    browser.key("ArrowDown")
    point("%s: the arrow down goes from the search to the list" % name, browser.js("document.activeElement.className") == "cut")


def replayed(file, steps, folder):
    """The values after steps, and what can be fired, by a replay of the test's own."""
    script = os.path.join(folder, "script")
    with open(script, "w", encoding="ascii") as opened:
        opened.write("".join("fire %s\n" % step for step in steps) + "show\nenabled\n")
    text = subprocess.run([os.environ["ALTARICA"], "replay", file, script], stdout=subprocess.PIPE, check=False).stdout.decode("ascii")
    text = text[text.index("\nshow\n"):]
    return dict(re.findall(r"^  (?:observer )?(\S+) = (.*)$", text, re.M)), re.findall(r"^  (\S+)$", text, re.M)


def walk(browser, words, folder):
    """Random steps forward and back: values, picture and list of the page against those of a replay."""
    steps, differ = [], []
    for _ in range(10):
        can = browser.js("[...enabled].map(k => labels[k])")
        if steps and random.random() < 0.25:
            browser.js("go(now - 1)")
            steps.pop()
        elif can:
            steps.append(random.choice(can))
            browser.js("fire(%s)" % json.dumps(steps[-1]))
        browser.until("JSON.stringify(steps.slice(0, now)) === %s" % json.dumps(json.dumps(steps, separators=(",", ":"))))
        values, labels = replayed(words[0], steps, folder)
        seen = browser.js("[...document.querySelectorAll('#picture g[id^=a_v]')].map(g => [nameOf(Number(g.id.slice(3))), g.querySelector('text').textContent])")
        listed = browser.js("values.map((value, n) => [nameOf(n), value])")
        if dict(listed) != values or browser.js("[...enabled].map(k => labels[k])") != labels or any(values[path] != value for path, value in seen):
            differ.append(list(steps))
    return differ


def walks(browser):
    with tempfile.TemporaryDirectory() as folder:
        for name, words in WALKED.items():
            with Served(*words) as it:
                browser.visit(it.address)
                browser.until(DRAWN + " && values.length > 0")
                differ = walk(browser, words, folder)
                point("%s: values, picture and list are those of replay on a random walk" % name, not differ, differ)
    browser.errors()


def hostile(browser):
    """A model whose names and remarks would be markup or keys of objects."""
    with tempfile.TemporaryDirectory() as folder:
        path = os.path.join(folder, "evil <img src=x onerror=alert(1)> \u202e.alt")
        with open(path, "wb") as file:
            file.write(HOSTILE)
        with Served(path, "--observer", "length") as it:
            browser.visit(it.address)
            browser.until(DRAWN + " && !!document.querySelector('.cut')")
            browser.js("fire('__proto__.hasOwnProperty')")
            browser.until("now === 1")
            browser.js("why(1)")
            browser.until("/reset|given/.test(at('why').textContent)")
            point("a hostile model: no markup is made of it", browser.js("document.querySelectorAll('img, iframe, script:not([src])').length") == 0)
            point("a hostile model: it works all the same", browser.js("isReached()") and browser.js("nameOf(1)") == "__proto__.toString")
            told = browser.js("at('why').textContent")
            point("a hostile model: signs that turn a line around are shown as numbers", "<202e>" in told and "\u202e" not in told and "\u202e" not in browser.js(
                "document.title + document.body.textContent"), told)
            browser.js("choose(model.units.indexOf('top')); tab('cuts'); document.querySelector('.cut').click()")
            browser.until("cutNumber > 0 && now === steps.length && !playing")
            point("a hostile model: units and cut sets", browser.js("at('chosen').textContent") == "top" and browser.js("isReached()"))
            blocked = browser.js("""(() => { let bad = 0; addEventListener("securitypolicyviolation", () => bad++);
                try { document.body.innerHTML = "<b>x</b>"; } catch { return "thrown"; } return "made"; })()""")
            point("no text can be made markup in the page", blocked == "thrown", blocked)
            browser.errors()
            with open(path, "ab") as file:
                file.write(b"// more\n")
            browser.js("go(0)")
            browser.until("!at('notice').hidden")
            point("a file that has changed is said", "has changed" in browser.js("at('notice').textContent"))
            browser.click("#notice button")
            browser.until("typeof values === 'object' && values.length > 0 && at('notice').hidden")
            point("and loaded by a click", not errors(browser))


def fault(browser):
    with Served("examples/conflict.alt", "--observer", "low") as it:
        browser.visit(it.address)
        browser.until("!!document.querySelector('#list_cuts pre')")
        point("a refused list is shown with its cause", "refuses" in browser.js("at('list_cuts').textContent"))
        browser.js("fire('upper.lose_sensor')")
        browser.until("!at('notice').hidden")
        told = browser.js("at('notice').textContent")
        point("a step that meets a fault is not taken", browser.js("steps.length") == 0 and "not taken. fault: " in told, told)
    with Served("tests/beside/vote.alt", "--observer", "no_trip") as it:
        browser.visit(it.address)
        browser.until(DRAWN + " && !at('notice').hidden")
        told = browser.js("at('notice').textContent")
        wrong = errors(browser)
        point("a model with a fault at the start is drawn, and the fault is said", told.startswith("fault: start: ") and not wrong, told + str(wrong))


def phone(browser):
    browser.size(390, 844, True)
    for name in ("aircraft", "brake"):
        with Served(*PLANTS[name]) as it:
            browser.visit(it.address)
            browser.until(DRAWN + " && !!document.querySelector('.cut')")
            point("%s: 390 points are wide enough" % name, browser.js("document.documentElement.scrollWidth") == 390)
            order = browser.js("['right', 'below', 'left'].map(id => at(id).getBoundingClientRect().top)")
            point("%s: the lists come first there, then the reasons, then the picture" % name, order == sorted(order), order)
    browser.size(1280, 800)


def by_file(browser):
    """The browser is opened by a file of the user alone, and the token is in no list of processes."""
    with tempfile.TemporaryDirectory() as folder:
        opener = os.path.join(folder, "opener")
        with open(opener, "w", encoding="ascii") as file:
            file.write('#!/bin/sh\nprintf "%%s\\n" "$1" >%s/asked\n' % folder)
        os.chmod(opener, 0o700)
        os.environ["BROWSER"] = opener + " %s"
        with Served(*PLANTS["ring"], "--browser") as it:
            for _ in range(100):
                if os.path.exists(folder + "/asked"):
                    break
                browser.js("new Promise(done => setTimeout(done, 50))")
            with open(folder + "/asked", encoding="ascii") as file:
                asked = file.read().strip()
            point("--browser opens a file, without the token in its name", asked.startswith("file:///") and it.token not in asked, asked)
            browser.visit(asked)
            browser.until(DRAWN)
            point("and the file leads to the workbench", browser.js("location.href").startswith(it.own))
        del os.environ["BROWSER"]
    browser.errors()


page = Browser()
page.size(1280, 800)
try:
    for plant, given in PLANTS.items():
        clicks(page, plant, given)
    walks(page)
    fault(page)
    hostile(page)
    phone(page)
    by_file(page)
finally:
    page.end()

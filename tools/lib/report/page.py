"""A page without outside parts, of sections. It lets no script run but its own. Not proved."""
import base64
import hashlib
import os
import re
from html import escape

HERE = os.path.dirname(os.path.realpath(__file__))
PAGE = """<!DOCTYPE html>
<html lang="en">
<head>
<meta charset="utf-8">
<meta http-equiv="Content-Security-Policy" content="default-src 'none'; script-src '%(script_sum)s'; style-src '%(style_sum)s'; base-uri 'none'; form-action 'none'">
<meta name="viewport" content="width=device-width, initial-scale=1">
<title>%(title)s</title>
<style>%(style)s</style>
</head>
<body>
<h1>%(title)s</h1>
%(head)s
<nav>%(links)s</nav>
%(parts)s
<script>%(script)s</script>
</body>
</html>
"""


def read(name):
    with open(os.path.join(HERE, name), encoding="utf-8") as file:
        return "\n" + file.read()


def sum_of(text):
    """How a policy names a script or a style."""
    return "sha256-" + base64.b64encode(hashlib.sha256(text.encode("utf-8")).digest()).decode("ascii")


def section(identity, title, body, kind=""):
    return '<section id="%s"%s><h2>%s</h2>\n%s\n</section>' % (identity, ' class="%s"' % kind if kind else "", escape(title), body)


def table(rows, kind=""):
    """A table of heads with what stands behind them, which is markup."""
    return '<table%s>%s</table>' % (' class="%s"' % kind if kind else "", "".join("<tr><th>%s</th><td>%s</td></tr>" % row for row in rows))


def whole(title, head, parts):
    """The page; `head` and the parts are markup."""
    style, script = read("page.css"), read("page.js")
    links = " ".join('<a href="#%s">%s</a>' % it for part in parts for it in re.findall(r'^<section id="(\w+)"[^>]*><h2>(.*?)</h2>', part))
    return PAGE % {"title": escape(title), "head": head, "links": links, "parts": "\n".join(parts), "style": style, "script": script,
                   "style_sum": sum_of(style), "script_sum": sum_of(script)}

"""report_page.py AIRCRAFT RING: the pages of two reports in Chromium: filters, CSV, print, without script, and on a phone."""
import sys

sys.dont_write_bytecode = True
from browser import Browser
from served import point

AIRCRAFT, RING = sys.argv[1:]
TAKE = """HTMLAnchorElement.prototype.click = function () { window.taken = this.download; };
URL.createObjectURL = blob => { window.blob = blob; return "blob:none"; };"""
OVER = """(() => { const boxes = [...document.querySelectorAll("h2, p, table, .filters, .picture, .forms, pre")].filter(it => it.getClientRects().length && !it.closest("details:not([open])") &&
  !it.parentElement.closest("table, pre, .picture, .forms")).map(it => it.getBoundingClientRect());
return boxes.slice(1).filter((box, n) => box.top < boxes[n].bottom - 1 && box.left < boxes[n].right - 1 && box.right > boxes[n].left + 1).length; })()"""


def csv_of(page, selector):
    """What a button would save: the name and the lines."""
    page.js("document.querySelector(%r).click()" % selector)
    return page.js("window.taken"), page.js("window.blob.text()").split("\r\n")[:-1]


def filters(page):
    page.visit("file://%s#size=2&name=cut" % RING)
    # By hand: of the nine cut sets of two events all but {east.fail, west.fail} have a link that is cut.
    point("filters by number of events and name", page.js("document.querySelector('.shown').textContent") == "8 of 12 cut sets")
    page.js(TAKE)
    name, lines = csv_of(page, "section.cuts .csv")
    point("the button saves the rows that are shown", (name, len(lines), lines[0]) == ("cuts0.csv", 9, "line,events,labels") and
          "4,2,east.fail,south_west.cut" in lines, lines)
    page.js("document.querySelector('.by').value = 'listed'; document.querySelector('.by').dispatchEvent(new Event('input'))")
    numbers = page.js("[...document.querySelectorAll('.list tr td:first-child')].map(it => Number(it.textContent))")
    point("the order of the listing", numbers == sorted(numbers) and len(numbers) == 12, numbers)
    name, lines = csv_of(page, "#fmea button")
    point("the table of single failures as CSV", name == "fmea.csv" and lines[0] == "failure,observers that change,flows that change", lines[:1])


def paper(page):
    """On paper there are all rows, whatever the filters leave."""
    page.visit("about:blank")
    page.visit("file://%s#size=1" % RING)
    page.call("Emulation.setEmulatedMedia", media="print")
    point("all rows are there in print", page.js("[...document.querySelectorAll('.list tr')].filter(it => it.getBoundingClientRect().height > 0).length") == 14)
    point("and no filters", page.js("document.querySelector('.filters').getClientRects().length") == 0)
    page.call("Emulation.setEmulatedMedia", media="")


def phone(page):
    for file in (AIRCRAFT, RING):
        for width in (390, 1280):
            page.size(width, 844, width == 390)
            page.visit("file://" + file)
            point("a page of %d points is not wider, and nothing is printed over anything: %s" % (width, file.rpartition("/")[2]),
                  page.js("document.documentElement.scrollWidth") == width and page.js(OVER) == 0, page.js(OVER))


def roots(page):
    page.visit("file://" + AIRCRAFT)
    shown = page.js("""[...document.querySelectorAll("#gates0 .picture, #flows .picture")].map(place => {
      const root = [...place.querySelectorAll("g.node > title")].find(it => it.textContent === "top").parentElement.getBoundingClientRect();
      const all = place.getBoundingClientRect();
      return root.left >= all.left - 1 && root.right <= all.right + 1 && root.top >= all.top - 1 && root.bottom <= all.bottom + 1; })""")
    point("the pictures begin at their root", shown == [True, True], shown)


def without_script(page):
    page.call("Emulation.setScriptExecutionDisabled", value=True)
    page.visit("file://" + RING)
    page.call("Emulation.setScriptExecutionDisabled", value=False)
    point("without script all rows are there, and no filter", page.js("document.querySelectorAll('.list tr').length") == 14 and page.js(
        "getComputedStyle(document.querySelector('.filters')).display") == "none")


browser = Browser()
browser.size(1280, 844)
try:
    filters(browser)
    paper(browser)
    roots(browser)
    phone(browser)
    wrong = browser.errors()
    point("the pages have no error", not wrong, wrong)
    without_script(browser)
finally:
    browser.end()

"""Tables for people, for spreadsheets and for pages. Not proved."""
import csv
import io
from html import escape

from command import write


def aligned(head, rows):
    """A table with blanks between its columns; the last column is as long as it is."""
    rows = [[str(cell) for cell in row] for row in [head, *rows]]
    widths = [max(map(len, column)) for column in zip(*rows)][:-1] + [0]
    return "".join("  ".join(cell.ljust(width) for cell, width in zip(row, widths)).rstrip() + "\n" for row in rows)


def as_csv(head, rows):
    """The same with commas, as spreadsheets read it."""
    text = io.StringIO()
    writer = csv.writer(text, lineterminator="\n")
    writer.writerow(head)
    writer.writerows(rows)
    return text.getvalue()


def as_html(identity, title, about, head, rows):
    """The same as a section of a page."""
    def line(name, cells):
        return "<tr>%s</tr>" % "".join("<%s>%s</%s>" % (name, escape(str(cell)), name) for cell in cells)

    return '<section id="%s"><h2>%s</h2>\n<p>%s</p>\n<table>\n%s\n</table>\n</section>\n' % (
        identity, escape(title), escape(about), "\n".join([line("th", head), *(line("td", row) for row in rows)]))


def show(head, rows, is_csv):
    """Writes a table in the form that is asked for."""
    write(as_csv(head, rows) if is_csv else aligned(head, rows))

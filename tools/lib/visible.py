"""Texts of people in a page, as remarks and names of files: nothing in them is unseen or turns a line around. Not proved."""


def visible(text):
    """A text in which each sign that is not printed, but for tabs and the ends of lines, is shown by its number."""
    return "".join(c if c in "\t\n" or c.isprintable() else "<%04x>" % ord(c) for c in text)

"""Runs `from_altarica` in this process."""
import contextlib
import io
import sys

import command
from translate import command as translation


class Kept(io.StringIO):
    """A stream of which the bytes are kept as text too."""

    @property
    def buffer(self):
        kept = self

        class Bytes:
            @staticmethod
            def write(piece):
                kept.write(piece.decode("latin-1"))

            @staticmethod
            def flush():
                pass

        return Bytes


def tool(*words):
    """The status and what it writes to the two outputs."""
    out, err = Kept(), Kept()
    with contextlib.redirect_stdout(out), contextlib.redirect_stderr(err):
        try:
            status = translation.work(translation.declare(command.Words()).parse_args(list(words)))
        except command.NoUse as error:
            status = command.NO_USE
            sys.stderr.write("%s\n" % error)
        except Exception as error:
            status = command.COULD_NOT
            sys.stderr.write("%s\n" % command.reason_of(error))
    return status, out.getvalue(), err.getvalue()

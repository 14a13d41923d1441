"""A model as the helpers read it: its text, its units, and its flat system. Not proved: `flat` is the program's."""
import functools

import grammar
import hierarchy
import program
import symbols
import texts
import tokens
from command import files_of


class Source:
    """The text of a model, read when it is needed; `main` names the main block."""

    def __init__(self, file, main=None):
        self.file, self.main = file, main

    @property
    def main_option(self):
        return [] if self.main is None else ["--main=" + self.main]

    @functools.cached_property
    def text(self):
        return tokens.read(self.file)

    @functools.cached_property
    def bodies(self):
        return hierarchy.Bodies(grammar.parse(self.text), self.main)

    @functools.cached_property
    def tree(self):
        return hierarchy.Tree(self.bodies)

    @functools.cached_property
    def flat(self):
        found = texts.flat(program.ask("flat", [self.file], self.main_option))
        return symbols.told_apart(found, self)

    def ask(self, command, options=(), more=()):
        """The program's text for a command on this model and further files."""
        return program.ask(command, [self.file, *more], [*self.main_option, *options])

    def words(self, command, options=(), more=()):
        """The words of such a command."""
        return [command, *self.main_option, *options, *files_of(self.file, *more)]

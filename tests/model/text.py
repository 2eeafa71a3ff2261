"""The text of a program, read token by token and as data (PostScript Language Reference, third edition, 3.2).

Of strings it has those without parentheses and backslashes, and hexadecimal ones; it has no comments.
"""
import re

from language import Failure

WHITE = b'\0\t\n\f\r '
TOKEN = re.compile(rb'\([^()\\]*\)|<[0-9a-fA-F\0\t\n\f\r ]*>|//?[^\0\t\n\f\r \[\](){}<>/%]*|<<|>>|[{}\[\]]'
                   rb'|[^\0\t\n\f\r \[\](){}<>/%]+')


class File:
    """The object that `currentfile` gives: the program's text."""

    def __eq__(self, other):
        return isinstance(other, File)

    def __hash__(self):
        return 0


class Text:
    """A place in a text: an iterator of its tokens, and a source of data."""

    def __init__(self, text):
        self.text, self.at = text, 0

    def __iter__(self):
        return self

    def __next__(self):
        start = self.at
        while start < len(self.text) and self.text[start] in WHITE:
            start += 1
        if start == len(self.text):
            self.at = start
            raise StopIteration
        found = TOKEN.match(self.text, start)
        if not found:
            raise Failure('syntaxerror', 'scan')
        self.at = found.end()
        token = found[0]
        if token[:1] not in b'({}' and not is_hexadecimal(token):
            self.skip_white()
        return token.decode('latin1')

    def skip_white(self):
        """The white space right after a number or a name goes with it."""
        if self.text[self.at:self.at + 2] == b'\r\n':
            self.at += 2
        elif self.text[self.at:self.at + 1] and self.text[self.at] in WHITE:
            self.at += 1

    def take(self, size):
        """So many bytes after the last token, or as many as there are."""
        taken = self.text[self.at:self.at + size]
        self.at += len(taken)
        return taken

    def take_hexadecimal(self, size):
        """So many bytes by pairs of digits, all else skipped; a digit without a partner is dropped."""
        digits = ''
        while len(digits) < 2 * size and self.at < len(self.text):
            byte = self.text[self.at:self.at + 1].decode('latin1')
            self.at += 1
            digits += byte if byte in '0123456789abcdefABCDEF' else ''
        return bytes.fromhex(digits[:len(digits) // 2 * 2])


def is_hexadecimal(token):
    return token[:1] == b'<' and token != b'<<'

"""The tokens of a statement."""
import re
from typing import NamedTuple

from reading.source import Refused

LONGEST_WORD, GREATEST_NUMBER = 63, 2 ** 63 - 1

JOINED = {'enddo': ('end', 'do'), 'endif': ('end', 'if'), 'elseif': ('else', 'if'), 'endprogram': ('end', 'program'),
          'endfunction': ('end', 'function'), 'endsubroutine': ('end', 'subroutine'), 'selectcase': ('select', 'case'),
          'endselect': ('end', 'select')}

SPELLED = {'.eq.': '==', '.ne.': '/=', '.lt.': '<', '.le.': '<=', '.gt.': '>', '.ge.': '>='}

TOKEN = re.compile(
    r'(?P<word>[A-Za-z][A-Za-z0-9_]*)'
    r'|(?P<digits>[0-9]+)(?:_(?P<kind>[A-Za-z][A-Za-z0-9_]*|[0-9]+))?'
    r"|(?P<literal>'(?:[^']|'')*'|\"(?:[^\"]|\"\")*\")"
    r'|(?P<dotted>\.(?:true|false|not|and|or|eqv|neqv|eq|ne|lt|le|gt|ge)\.)'
    r'|(?P<mark>\*\*|::|==|/=|<=|>=|[()\[\],:=+\-*/<>])', re.IGNORECASE | re.DOTALL)


class Token(NamedTuple):
    """A word, a number with its kind (or None), a literal's characters, a truth, or a mark."""
    sort: str
    text: str
    kind: str | None = None


def token_of(match):
    """The tokens that a match is; two, for a joined word."""
    if match['word']:
        word = match['word'].lower()
        if len(word) > LONGEST_WORD:
            raise Refused('a word is too long')
        return [Token('word', part) for part in JOINED.get(word, (word,))]
    if match['digits']:
        kind = match['kind'] and match['kind'].lower()
        digits = match['digits'].lstrip('0')
        if len(digits) > 19 or int(digits or '0') > GREATEST_NUMBER:
            raise Refused('a number is too great')
        if kind and kind[0].isalpha() and len(kind) > LONGEST_WORD:
            raise Refused('a word is too long')
        return [Token('number', match['digits'], kind)]
    if match['literal']:
        quote = match['literal'][0]
        return [Token('literal', match['literal'][1:-1].replace(quote * 2, quote))]
    text = (match['dotted'] or match['mark']).lower()
    return [Token('truth' if text in ('.true.', '.false.') else 'mark', SPELLED.get(text, text))]


def tokens_of(statement):
    """The tokens of a statement's characters."""
    found, at = [], 0
    while at < len(statement):
        if statement[at] == ' ':
            at += 1
            continue
        match = TOKEN.match(statement, at)
        if not match:
            raise Refused(f'no token begins at {statement[at:at + 10]!r}')
        found += token_of(match)
        at = match.end()
    return found

"""Statements as a text: each on a line, or in the free source form, or with something wrong in it."""
import re

TOKEN = re.compile(r"""'(?:[^']|'')*'|"(?:[^"]|"")*"|[0-9]+_[A-Za-z0-9_]+|[A-Za-z0-9_]+|\.[A-Za-z]+\.|"""
                   r"""\*\*|::|==|/=|<=|>=|\S""")
JOINED = {('end', 'do'), ('end', 'program')}
SPELLED = {'==': '.eq.', '/=': '.ne.', '<': '.lt.', '<=': '.le.', '>': '.gt.', '>=': '.ge.'}
COMMENTS = ['', '', '', ' ', "! a comment; it's \"one\"", '\r', '!&', '\t!']


def plainly(chance, statements):
    """Each statement on a line of its own, more or less to the right."""
    lines = [' ' * chance.choice([0, 0, 2, 7, 100]) + statement for statement in statements]
    return '\n'.join(lines) + chance.choice(['', '\n'])


# ---- the free source form

def is_word(token):
    return token[0].isalnum() or token[0] == '_'


def is_literal(token):
    return token[0] in '\'"'


def spelled(chance, token):
    """A token in letters of either case, and a relation by its name now and then."""
    if is_literal(token):
        return token
    if token in SPELLED and chance.random() < 0.3:
        token = SPELLED[token]
    return ''.join(chance.choice([letter, letter.upper()]) for letter in token)


def respelled(chance, statement):
    """The statement with blanks and tabs where they may be."""
    made, before = '', None
    for token in TOKEN.findall(statement):
        least = 1 if before and is_word(before) and is_word(token) else 0
        blanks = chance.choice([0, 1]) if (before, token) in JOINED else chance.choice([least, least, 1, 2])
        made += ''.join(chance.choice([' ', ' ', '\t']) for _ in range(blanks)) + spelled(chance, token)
        before = token
    return made


def literal_places(text):
    """For each place in a text whether it stands inside of a literal."""
    found, quote = [], None
    for character in text:
        found.append(quote is not None)
        if quote:
            quote = None if character == quote else quote
        elif character in '\'"':
            quote = character
    return found


def continued(chance, text):
    """The text, cut at some places and continued on further lines."""
    inside = literal_places(text)
    for place in sorted((chance.randrange(1, len(text)) for _ in range(chance.choice([0, 0, 0, 1, 2]))), reverse=True):
        before, after = text[:place], text[place:]
        if before.strip() and after.split('&')[0].strip():
            text = f'{before}&{continuation(chance, inside[place], before[-1], after[0])}{after}'
    return text


def continuation(chance, is_inside, before, after):
    """What stands behind the `&` of a line, up to where the statement goes on on the next one."""
    if is_inside:
        return f'\n{chance.choice(["", "  ", chr(9)])}&'
    end = chance.choice(['\n', '\n', ' ! more\n', '\n\n  ! in between\n'])
    if (before in ' \t' or after in ' \t') and chance.random() < 0.5:
        return end
    return f'{end}{chance.choice(["", "  ", chr(9)])}&'


def freely(chance, statements):
    """Statements in the free source form: several on a line, or continued, with comments between."""
    text = ''
    for statement in statements:
        text += chance.choice(['', '', ' ', '\t']) + continued(chance, respelled(chance, statement))
        if chance.random() < 0.15:
            text += chance.choice([';', ' ; ', ';;'])
        else:
            text += chance.choice(COMMENTS) + '\n' + chance.choice(['', '', '', '\n', '  ! a line of its own\n'])
    return text


# ---- texts with something wrong, most likely

def other_byte(chance, text, at, _to):
    byte = chance.choice(['', ' ', '\n', '0', 'i', '(', ')', '*', '&', ';', "'", chr(chance.randrange(256))])
    return text[:at] + byte + text[at + 1:]


def exchanged_bytes(_chance, text, at, to):
    return text[:at] + text[to:to + 1] + text[at + 1:to] + text[at:at + 1] + text[to + 1:]


def sort_of(token):
    """What a token looks like: a number, a word, a literal or a mark."""
    return 'number' if token[0].isdigit() else 'word' if is_word(token) else 'literal' if is_literal(token) else 'mark'


def other_token(chance, text, _at, _to):
    """A token is left out, doubled, or in the place of another one."""
    found = list(TOKEN.finditer(text))
    first, second = chance.choice(found), chance.choice(found)
    other = chance.choice(['0', '-1', '1_1', '.true.', '(1)'])
    new = chance.choice(['', f'{first.group()} {first.group()}', second.group(), other])
    return text[:first.start()] + new + text[first.end():]


def like_token(chance, text, _at, _to):
    """A token of the same sort in the place of another one."""
    found = list(TOKEN.finditer(text))
    first = chance.choice(found)
    alike = [match.group() for match in found if sort_of(match.group()) == sort_of(first.group())]
    return text[:first.start()] + chance.choice(alike) + text[first.end():]


def other_lines(chance, text, _at, _to):
    """A line is left out, doubled, or goes elsewhere."""
    lines = text.split('\n')
    place, other = chance.randrange(len(lines)), chance.randrange(len(lines))
    line = lines.pop(place)
    lines[other:other] = chance.choice([[], [line], [line, line]])
    return '\n'.join(lines)


def mangled(chance, text, other):
    """The text with something wrong, most likely; it may go on as another text does."""
    at, to = sorted(chance.randrange(len(text)) for _ in range(2))
    change = chance.choice([
        other_byte, exchanged_bytes, other_token, other_token, like_token, like_token, like_token, other_lines,
        lambda chance, text, at, to: text[:at] + text[to:], lambda chance, text, at, to: text[:at],
        lambda chance, text, at, to: text[:at] + other[at:]])
    return change(chance, text, at, to)

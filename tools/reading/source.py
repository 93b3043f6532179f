"""The statements of a text in Fortran's free source form, each with the line on which it begins."""

LONGEST_SOURCE, LONGEST_LINE, LONGEST_STATEMENT = 1_048_576, 10_000, 1_000_000
BLANKS = ' \t'
END = '\n'      # the end of a statement; no line has this character


class Refused(Exception):
    """The text isn't accepted. The words say why, for people alone."""


def lines_of(text):
    """The lines of a text: what stands between its line feeds, each without one carriage return at its end."""
    lines = text.split('\n')
    if not lines[-1]:
        lines.pop()
    return [line[:-1] if line.endswith('\r') else line for line in lines]


def is_comment_line(line):
    bare = line.lstrip(BLANKS)
    return not bare or bare.startswith('!')


class Joiner:
    """Takes the lines of a text one by one, and gathers its statements."""

    def __init__(self):
        self.statements = []
        self.characters = []    # of the statement at hand, each with its line
        self.quote = None       # what opened the literal in which the text stands
        self.continued = False

    def take(self, number, line):
        if len(line) > LONGEST_LINE:
            raise Refused(f'line {number} is too long')
        if is_comment_line(line):
            return
        goes_on = self.continued and line.lstrip(BLANKS).startswith('&')
        taken = self.taken_from(number, self.behind_ampersand(number, line) if self.continued else line)
        bare = taken.rstrip(BLANKS)
        if bare.strip(BLANKS) == ('' if goes_on else '&'):
            raise Refused(f'line {number} has nothing but &')
        self.continued = bare.endswith('&')
        if self.quote and not self.continued:
            raise Refused(f'a literal is open at the end of line {number}')
        for character in bare[:-1] if self.continued else taken:
            if character == END:
                self.end()
            else:
                self.characters.append((character, number))
        if not self.continued:
            self.end()

    def behind_ampersand(self, number, line):
        """What a line adds to the statement that is continued on it: what stands behind its first `&`, or all of it."""
        bare = line.lstrip(BLANKS)
        if bare.startswith('&'):
            return bare[1:]
        if self.quote:
            raise Refused(f'a literal goes on in line {number}, which does not begin with &')
        return ' ' + line

    def taken_from(self, number, line):
        """The characters in front of a comment, with the ends of statements. Tabs outside of literals are blanks."""
        taken = []
        for character in line:
            if self.quote:
                if character == self.quote:
                    self.quote = None
            elif character == '!':
                break
            elif character in '\'"':
                self.quote = character
            elif character in ';\t':
                character = END if character == ';' else ' '
            elif not ' ' <= character <= '~':
                raise Refused(f'line {number} has a character that is not allowed')
            taken.append(character)
        return ''.join(taken)

    def end(self):
        """The statement at hand is whole."""
        if len(self.characters) > LONGEST_STATEMENT:
            raise Refused('a statement is too long')
        first = next((number for character, number in self.characters if character != ' '), None)
        if first is not None:
            self.statements.append((first, ''.join(character for character, _number in self.characters)))
        self.characters = []


def statements_of(text):
    """The statements of a text, as pairs of a line and the characters without comments and continuations."""
    if len(text) > LONGEST_SOURCE:
        raise Refused('the source is too long')
    joiner = Joiner()
    for number, line in enumerate(lines_of(text), 1):
        joiner.take(number, line)
    if joiner.continued:
        raise Refused('the last statement is continued')
    return joiner.statements

"""The grammar of a script's lines, as tables.

tools/check_script reads lines by them, and tools/write_grammar writes the syntax files of editors/ and docs/zt.1 from them.
What holds is crates/zt_lines/specs/Grammar.antt, by which the program's reader is proved; .ci/run compares the two on scripts.
"""
import re
from typing import Callable, NamedTuple

MOST_BYTES = 1 << 20


class Fault(Exception):
    """A field that isn't what the grammar wants: its number in the line, from 1, and what was expected there."""

    def __init__(self, number, expected):
        super().__init__(number, expected)
        self.number, self.expected = number, expected


class Value(NamedTuple):
    """A kind of field: its name in the tables, what it is in words, and what is wrong with a text, or None."""
    name: str
    what: str
    wrong: Callable[[str], str | None]


def number(name, least, most):
    what = 'a number from %d to %d, without leading zeros' % (least, most)

    def wrong(text):
        if not re.fullmatch('0|[1-9][0-9]*', text) or len(text) > 20 or not least <= int(text) <= most:
            return what
    return Value(name, what, wrong)


def one_of(name, *words):
    what = ', '.join('`%s`' % word for word in words[:-1]) + ' or `%s`' % words[-1]
    return Value(name, what, lambda text: None if text in words else what)


def spelled(name, what, pattern):
    return Value(name, what, lambda text: None if re.fullmatch(pattern, text) else what)


def list_of(member, separator=','):
    """One or more members with a separator between them."""
    def wrong(text):
        return next((wrong for wrong in map(member.wrong, text.split(separator)) if wrong), None)
    return Value('%s%s..' % (member.name, separator), '%s; one or more, with `%s` between them' % (member.what, separator), wrong)


def joined(*members):
    """Members with `:` between them."""
    name = ':'.join(member.name for member in members)

    def wrong(text):
        parts = text.split(':')
        if len(parts) != len(members):
            return '%s, with `:` between its parts' % name
        return next((wrong for wrong in (member.wrong(part) for member, part in zip(members, parts)) if wrong), None)
    return Value(name, name, wrong)


U16 = number('U16', 0, 65535)
U32 = number('U32', 0, 4294967295)
U64 = number('U64', 0, 18446744073709551615)
GATEWAY, LINK, FACE = U32._replace(name='G'), U32._replace(name='L'), U32._replace(name='F')
FIRST = number('FIRST', 1, 4294967295)
MODE = one_of('MODE', 'router', 'peer', 'client')
BOUND = one_of('BOUND', 'north', 'south')
DIRECTION = one_of('DIR', 'fwd', 'back')._replace(what='`fwd`, from the first gateway to the second, or `back`')
INTEREST_MODE = one_of('IMODE', 'current', 'future', 'current-future')
FLAG = one_of('C', '0', '1')
ZID = spelled('ZID', 'a zid: 1 to 32 digits of `0-9a-f`, the first not `0`', '[1-9a-f][0-9a-f]{0,31}')
WORD = spelled('WORD', 'a name: 1 to 32 of `a-z0-9_`', '[a-z0-9_]{1,32}')
OPTIONS = spelled('OPTS', '`-`, or one or more of the letters `ksqta` in this order (key expressions, subscribers, queryables, tokens, aggregated)', '-|(?=.)k?s?q?t?a?')


def wrong_region(text):
    kind, minus, mode = text[len('south'):].partition('-')
    if text in ('north', 'local') or text.startswith('south') and minus and not U32.wrong(kind) and not MODE.wrong(mode):
        return None
    return REGION.what


REGION = Value('R', 'a region: `north`, `local`, or `south`, a number, `-` and a mode, as `south0-client`', wrong_region)
SOUTH_REGION = Value('R', 'a south region, as `south0-client`',
                     lambda text: wrong_region(text) and SOUTH_REGION.what if text not in ('north', 'local') else SOUTH_REGION.what)


def wrong_key(text):
    """What is wrong with a key expression, by the first chunk that is."""
    at, chunks = 0, text.split('/')
    for chunk in chunks:
        bad = next((c for c in chunk if c <= ' ' or c in '\x7f#?$'), None)
        said = ('an empty chunk' if not chunk else 'the character %r' % bad if bad else
                'a `*` beside other characters' if '*' in chunk and chunk not in ('*', '**') else None)
        if said:
            return '%s; it has %s at byte %d' % (KEY.what, said, at)
        at += len(chunk.encode()) + 1
    for one, two in zip(chunks, chunks[1:]):
        if one == '**' and two in ('*', '**'):
            return '%s; a `**` is followed by `%s`' % (KEY.what, two)
    return None


KEY = Value('KEY', 'a key expression (chunks with `/` between them; `*` and `**` only as whole chunks; none of `#?$`)', wrong_key)


def wrong_filter(text):
    text = text.removeprefix('!')
    if text == 'all':
        return None
    rest = text.split('&')
    for word, members in (('zid:', list_of(ZID, '+')), ('mode:', list_of(MODE, '+')), ('name:', list_of(WORD, '+'))):
        if rest and rest[0].startswith(word):
            wrong = members.wrong(rest.pop(0)[len(word):])
            if wrong:
                return wrong
    return FILTER.what if rest else None


FILTER = Value('FILTER', 'a filter: an optional `!`, then `all`, or `zid:ZID+..`, `mode:MODE+..` and `name:WORD+..` in this order, each at most once, with `&` between them', wrong_filter)


def wrong_south(text):
    subregions = [] if text == 'auto' else text.split(';')
    filters = [filter for subregion in subregions if subregion != 'any' for filter in subregion.split('|')]
    return next((wrong for wrong in map(wrong_filter, filters) if wrong), None)


SOUTH = Value('CONF', '`auto`, or subregions with `;` between them, each `any`, or filters with `|` between them', wrong_south)


class Form(NamedTuple):
    """A kind of line: what it does, its fields behind the word, and those that may be absent, each behind its own word."""
    what: str
    fields: list
    optional: list = []


LINES = {
    'gateway': Form('makes a gateway', [MODE, ZID], [('regions=', list_of(SOUTH_REGION)), ('south=', SOUTH), ('name=', WORD), ('timeout=', U64),
                                                      ('refuse=', list_of(joined(REGION, REGION)))]),
    'session': Form('opens a session', [GATEWAY], [('first=', FIRST)]),
    'face': Form('opens the face of a transport', [GATEWAY, MODE, ZID, REGION, BOUND], [('first=', FIRST)]),
    'link': Form('joins two gateways', [GATEWAY, GATEWAY], [('first=', FIRST), ('back=', FIRST)]),
    'unlink': Form('closes a link', [LINK]),
    'step': Form('delivers one message of a link', [LINK, DIRECTION]),
    'declare': Form('declares a token', [FACE, U32, KEY], [('interest=', U32), ('node=', U16)]),
    'undeclare': Form('undeclares a token', [FACE, U32], [('expr=', KEY), ('node=', U16)]),
    'interest': Form('asks for tokens, now, later or both', [FACE, U32, INTEREST_MODE, OPTIONS], [('expr=', KEY)]),
    'interest-final': Form('ends an interest', [FACE, U32]),
    'declare-final': Form('says that all answers to an interest were given', [FACE, U32]),
    'close': Form('closes a face', [FACE]),
    'moment': Form('ends what waits too long at this time in milliseconds', [GATEWAY, U64]),
    'trees': Form('sets the link state of a router region', [GATEWAY, REGION, ('routers=', list_of(joined(U16, ZID)))],
                  [('links=', list_of(joined(FACE, U16, ZID))), ('children=', list_of(joined(ZID, ZID)))]),
    'entities': Form('sets the subscribers and queryables of a face', [FACE]),
}
# behind `entities F`: any number of items, each a letter and its fields
ITEMS = {'s': ('a subscriber', [KEY]), 'q': ('a queryable, complete or not, and its distance', [FLAG, U16, KEY])}

# in this order in a script for many workers: one gateway, lines that open faces, lines that speak
OPENING = ('session', 'face')
SPEAKING = ('declare', 'undeclare', 'interest', 'interest-final', 'declare-final', 'close', 'entities')


def name_of(field):
    """A field's name in a line of the tables."""
    return field.name if isinstance(field, Value) else field[0] + field[1].name


def usage_of(word):
    """A kind of line, as the tables write it."""
    form = LINES[word]
    shown = [word] + [name_of(field) for field in form.fields] + ['[%s]' % name_of(field) for field in form.optional]
    return ' '.join(shown + (['ITEM', 'ITEM', '..'] if word == 'entities' else []))


class Fields:
    """The fields of a line, taken one by one."""

    def __init__(self, fields):
        self.fields, self.at = fields, 0

    def next(self, what):
        if self.at == len(self.fields):
            raise Fault(self.at + 1, what)
        self.at += 1
        return self.fields[self.at - 1]

    def check(self, value, text):
        wrong = value.wrong(text)
        if wrong:
            raise Fault(self.at, wrong)

    def take(self, field):
        """The next field, which has to be this one."""
        if isinstance(field, Value):
            self.check(field, self.next(field.what))
            return
        word, value = field
        text = self.next('`%s`' % word)
        if not text.startswith(word):
            raise Fault(self.at, '`%s`' % word)
        self.check(value, text[len(word):])

    def take_optional(self, optional):
        """Those fields that are there, and then the end of the line."""
        left = [word for word, _ in optional]
        for word, value in optional:
            if self.at < len(self.fields) and self.fields[self.at].startswith(word):
                self.at += 1
                self.check(value, self.fields[self.at - 1][len(word):])
                left = left[left.index(word) + 1:]
        if self.at < len(self.fields):
            known = any(self.fields[self.at].startswith(word) for word, _ in optional)
            order = ' (the order is %s, each at most once)' % ' '.join(word for word, _ in optional)
            raise Fault(self.at + 1, ' or '.join(['the end of the line', *('`%s`' % word for word in left)]) + (order if known else ''))


def check_line(line):
    """Raises Fault where the bytes of a line aren't in the grammar."""
    try:
        text = line.decode('utf-8')
    except UnicodeDecodeError as error:
        raise Fault(line[:error.start].count(b' ') + 1, 'UTF-8') from None
    fields = Fields(text.split(' '))
    word = fields.next('')
    if word not in LINES:
        raise Fault(1, 'a kind of line: %s' % ', '.join(LINES))
    for field in LINES[word].fields:
        fields.take(field)
    while word == 'entities' and fields.at < len(fields.fields):
        kind = fields.next('')
        if kind not in ITEMS:
            raise Fault(fields.at, 'the end of the line, or an item: `s KEY` or `q C U16 KEY`')
        for value in ITEMS[kind][1]:
            fields.take(value)
    fields.take_optional(LINES[word].optional)


def lines_of(script):
    """The lines of a script, and whether it is longer than scripts may be; then only those that end early enough."""
    lines = script[:MOST_BYTES].split(b'\n')
    last = lines.pop()
    longer = len(script) > MOST_BYTES
    return lines + ([last] if last and not longer else []), longer


def check_place(word, before):
    """Raises Fault where a line with this word has no place behind those words, in a script for many workers."""
    if not before and word != 'gateway':
        raise Fault(1, 'the line that makes the gateway, which comes first')
    if before and word not in OPENING + SPEAKING:
        raise Fault(1, 'a line that opens a face or speaks for one, as workers share one gateway')
    if word in OPENING and before[-1] in SPEAKING:
        raise Fault(1, 'a line that speaks for a face, as those that open faces come before')


def first_fault(script, drive=False):
    """The first line of a script that isn't in the grammar, as its number, its text and the fault; or None."""
    before = []
    for line_number, line in enumerate(lines_of(script)[0], 1):
        try:
            check_line(line)
            word = line.split(b' ')[0].decode()
            if drive:
                check_place(word, before)
            before = [*before[:1], word]
        except Fault as fault:
            return line_number, line, fault
    return None

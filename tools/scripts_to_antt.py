#!/usr/bin/env python3
"""Writes the crate zt_model_test: laws that the definitions give each script its transcript.

usage: scripts_to_antt.py FOLDER..        the laws of every script in these folders
       scripts_to_antt.py --only BASE..   those of the scripts BASE.in with the transcripts BASE.out, to try them

Scripts of more than 400 lines are left out, and those that have words of their own (NAME.args other than 'run').
A script that ends in a bad line is taken up to it. Keys stand as numbers in the order of their bytes, and which of
them match is worked out here. What is written lies in src/, specs/, proofs/ and must-fail/ of the crate, and
in tests/edits; specs/Script.antt alone is written by hand.
"""
import glob, os, re, sys
from string import Template

HERE = os.path.dirname(os.path.abspath(__file__))
ROOT = os.path.join(HERE, '..')
CRATE = os.path.join(ROOT, 'crates', 'zt_model_test')
FURTHER_EDITS = os.path.join('..', '..', 'tests', 'edits', 'zt_model_test')
LINES_OF_A_PART = 640

# ---- keys

def matches(a, b):
    """Whether some list of plain chunks is a member of both expressions."""
    def go(x, y):
        if not x and not y: return True
        if x and x[0] == '**': return go(x[1:], y) or (bool(y) and not y[0].startswith('@') and go(x, y[1:]))
        if y and y[0] == '**': return go(y, x)
        if not x or not y: return False
        if x[0] == '*' and y[0] == '*': return go(x[1:], y[1:])
        if x[0] == '*': return not y[0].startswith('@') and go(x[1:], y[1:])
        if y[0] == '*': return not x[0].startswith('@') and go(x[1:], y[1:])
        return x[0] == y[0] and go(x[1:], y[1:])
    return go(a.split('/'), b.split('/'))

class Keys:
    """Collects the keys of a script, and then gives their numbers."""
    def __init__(self): self.seen, self.order = set(), None
    def settle(self): self.order = sorted(self.seen, key=lambda k: k.encode())
    def __call__(self, key):
        if self.order is None: self.seen.add(key); return '0'
        return str(self.order.index(key))
    def pairs(self):
        numbered = list(enumerate(self.order))
        return [(i, j) for i, x in numbered for j, y in numbered if i != j and matches(x, y)]
    def named(self): return ', '.join('%d is %s' % (i, k.encode('unicode_escape').decode()) for i, k in enumerate(self.order))

# ---- terms

def bare(term):
    """The term without its brackets, where an application stands in them."""
    depths = [term[:i].count('(') - term[:i].count(')') for i, c in enumerate(term) if c == ',']
    return term[1:-1] if re.match(r'\((South|Some|zid|record) ', term) and 1 not in depths else term

def listed(members):
    members = [bare(term) for term in members]
    return '(%s ∷ [])' % ' ∷ '.join(members) if members else '[]'
def some(term): return '(Some %s)' % term
def bare_list(term): return term[1:-1] if term.startswith('(') else term
def pair(*terms): return '(%s)' % ', '.join(map(bare, terms))
def number(word): return str(int(word))
def zid(word): return '(zid %d)' % int(word, 16)
def mode(word): return {'client': 'Client', 'peer': 'Peer', 'router': 'Router'}[word]
def bound(word): return {'north': 'bound.North', 'south': 'bound.South'}[word]
def options(word): return '(options %d)' % sum({'k': 1, 's': 2, 'q': 4, 't': 8, 'a': 16}[c] for c in word if c != '-')
def interest_mode(word): return {'current': 'Current', 'future': 'Future', 'current-future': 'CurrentFuture'}[word]
def flag(word): return 'true' if word == '1' else 'false'
def text(word): return '(codes "%s")' % word
def info(complete, distance): return '(record { complete = %s; distance = %s })' % (flag(complete), number(distance))

def region(word):
    if word in ('north', 'local'): return word.capitalize()
    found = re.fullmatch(r'south(\d+)-(\w+)', word)
    return '(South %s %s)' % (found[1], mode(found[2]))

def south(word): return 'None' if word == 'auto' else some(listed(map(subregion, word.split(';'))))
def subregion(word): return 'None' if word == 'any' else some(listed(map(rule, word.split('|'))))

def rule(word):
    negated, word = word.startswith('!'), word.lstrip('!')
    parts = dict(part.split(':', 1) for part in word.split('&')) if word != 'all' else {}
    members = lambda name, term: some(listed(map(term, parts[name].split('+')))) if name in parts else 'None'
    return '(record { zids = %s; interfaces = None; modes = %s; region_names = %s; negated = %s })' % (
        members('zid', zid), members('mode', mode), members('name', text), 'true' if negated else 'false')

def fields(words): return dict(word.split('=', 1) for word in words)
def optional(given, name, term): return some(term(given[name])) if name in given else 'None'
def comma_list(given, name, term): return listed(term(*member.split(':')) for member in given[name].split(',')) if name in given else '[]'

# ---- lines of scripts

def line_term(line, key):
    kind, *w = line.split(' ')
    if kind == 'gateway':
        given = fields(w[2:])
        return 'Gateway %s %s %s %s %s %s %s' % (
            mode(w[0]), zid(w[1]), comma_list(given, 'regions', region), south(given.get('south', 'auto')), optional(given, 'name', text),
            number(given.get('timeout', '10000')), comma_list(given, 'refuse', lambda a, b: pair(region(a), region(b))))
    if kind == 'session': return 'Session %s %s' % (number(w[0]), number(fields(w[1:]).get('first', '1')))
    if kind == 'face':
        first = number(fields(w[5:]).get('first', '1'))
        return 'FaceLine %s %s %s %s %s %s' % (number(w[0]), mode(w[1]), zid(w[2]), region(w[3]), bound(w[4]), first)
    if kind == 'link':
        given = fields(w[2:])
        return 'LinkLine %s %s %s %s' % (number(w[0]), number(w[1]), number(given.get('first', '1')), number(given.get('back', '1')))
    if kind == 'unlink': return 'Unlink %s' % number(w[0])
    if kind == 'step': return 'Step %s %s' % (number(w[0]), {'fwd': 'false', 'back': 'true'}[w[1]])
    if kind == 'moment': return 'Moment %s %s' % (number(w[0]), number(w[1]))
    if kind == 'trees':
        given = fields(w[2:])
        return 'SetTreesAt %s %s (record { routers = %s; links = %s; children = %s })' % (number(w[0]), region(w[1]),
            comma_list(given, 'routers', lambda n, z: pair(number(n), zid(z))),
            comma_list(given, 'links', lambda f, n, z: pair(number(f), number(n), zid(z))),
            comma_list(given, 'children', lambda s, c: pair(zid(s), zid(c))))
    return 'Speak (%s)' % call_term(kind, w, key)

def call_term(kind, w, key):
    if kind == 'declare':
        given = fields(w[3:])
        node, interest = number(given.get('node', '0')), optional(given, 'interest', number)
        return 'DeclareToken %s %s %s %s %s' % (number(w[0]), number(w[1]), key(w[2]), node, interest)
    if kind == 'undeclare':
        given = fields(w[2:])
        return 'UndeclareToken %s %s %s %s' % (number(w[0]), number(w[1]), optional(given, 'expr', key), number(given.get('node', '0')))
    if kind == 'interest':
        expression = optional(fields(w[4:]), 'expr', key)
        return 'Interest %s %s %s %s %s' % (number(w[0]), number(w[1]), interest_mode(w[2]), options(w[3]), expression)
    if kind == 'interest-final': return 'InterestFinal %s %s' % (number(w[0]), number(w[1]))
    if kind == 'declare-final': return 'DeclareFinal %s %s' % (number(w[0]), number(w[1]))
    if kind == 'close': return 'CloseFace %s' % number(w[0])
    assert kind == 'entities', kind
    subscribers, queryables, rest = [], [], w[1:]
    while rest:
        if rest[0] == 's': subscribers.append(key(rest[1])); rest = rest[2:]
        else: queryables.append(pair(key(rest[3]), info(rest[1], rest[2]))); rest = rest[4:]
    return 'SetEntities %s %s %s' % (number(w[0]), listed(subscribers), listed(queryables))

# ---- transcripts

def message_term(line, key):
    gateway, face, kind, *w = line.split(' ')[1:]
    given = lambda place: some(key(w[place])) if len(w) > place else 'None'
    if kind == 'token': term = 'message.DeclareToken %s %s None %s' % (w[0], key(w[2]), w[1])
    elif kind == 'answer': term = 'message.DeclareToken %s %s (Some %s) %s' % (w[1], key(w[3]), w[0], w[2])
    elif kind == 'untoken': term = 'message.UndeclareToken %s %s %s' % (w[0], given(2), w[1])
    elif kind == 'final': term = 'message.DeclareFinal %s' % w[0]
    elif kind == 'interest': term = 'message.Interest %s %s %s %s' % (w[0], interest_mode(w[1]), options(w[2]), given(3))
    elif kind == 'interest-final': term = 'message.InterestFinal %s' % w[0]
    elif kind == 'subscriber': term = 'message.DeclareSubscriber %s %s %s' % (w[1], key(w[2]), w[0])
    elif kind == 'queryable': term = 'message.DeclareQueryable %s %s %s %s' % (w[1], key(w[4]), info(w[2], w[3]), w[0])
    else: raise ValueError(line)
    return 'sent %s %s (%s)' % (gateway, face, term)

def transcript_terms(transcript, key):
    """The entries, and the totals where they were printed."""
    entries, totals = [], 'None'
    for line in transcript.split('\n')[:-1]:
        words = line.split(' ')
        if words[0] == '>': entries[-1].append(message_term(line, key))
        elif words[0] == 'total': totals = some('(record { lines = %s; messages = %s; refusals = %s })' % tuple(words[1:]))
        elif words[1] == 'ok': entries.append([])
        else: entries.append('Err refusal.' + words[2])
    return [e if isinstance(e, str) else 'Ok ' + listed(e) for e in entries], totals

# ---- scripts

def name_of(base): return re.sub('[^a-z0-9]', '_', os.path.basename(base))

def read(path):
    with open(path, encoding='utf-8', errors='replace', newline='\n') as file: return file.read()

def is_taken(base):
    if read(base + '.in').count('\n') > 400: return False
    return not os.path.exists(base + '.args') or read(base + '.args').split() == ['run']

def column(terms):
    """A list with a member on each line."""
    return ''.join('\n      %s%s' % ('∷ ' if i else '', term) for i, term in enumerate(terms)) + ('\n      ∷ []' if terms else ' []')

SCRIPT = Template('''-- $title
abbrev pub $name : Script
$name = record {
  matches = $matches;
  lines =$lines;
  entries =$entries;
  totals = $totals;
}
''')

def script_definition(base, whole=False):
    """The script, up to the lines that have entries where it isn't wanted whole."""
    key, transcript = Keys(), read(base + '.out')
    entries, totals = transcript_terms(transcript, key)
    lines = read(base + '.in').split('\n')[:None if whole else len(entries)]
    if whole: lines = lines[:-1]
    for line in lines: line_term(line, key)
    key.settle()
    entries, totals = transcript_terms(transcript, key)
    return SCRIPT.substitute(
        title=os.path.basename(base) + (': ' + key.named() if key.order else ''), name=name_of(base),
        matches=bare_list(listed('(%d, %d)' % two for two in key.pairs())),
        lines=column([line_term(line, key) for line in lines]), entries=column(entries), totals=bare(totals))

def parts_of(bases):
    """The scripts in parts whose definitions make files of no more than so many lines."""
    parts, size = [], LINES_OF_A_PART
    for base in bases:
        definition = script_definition(base)
        lines = definition.count('\n') + 1
        if size + lines > LINES_OF_A_PART: parts.append([]); size = 0
        parts[-1].append((name_of(base), definition)); size += lines
    return parts

# ---- wrong transcripts, which the check must refuse

def turned_message(line):
    """The line with another id, or another interest, in its first message; None where it has no message."""
    found = re.search(r'(\(message\.\w+ )(\d+)', line)
    return found and line[:found.start()] + found[1] + str(int(found[2]) + 1) + line[found.end():]

def lost_message(line):
    """The line without its first message, where it has several."""
    found = re.search(r'Ok \(sent .*?\) ∷ (?=sent )', line)
    return found and line[:found.start()] + 'Ok (' + line[found.end():]

def turned_refusal(line):
    found = re.search(r'Err refusal\.(\w+)', line)
    return found and line.replace(found[1], 'UnknownFace' if found[1] != 'UnknownFace' else 'UnknownGateway')

def wrong_lines(lines):
    """A line that stands once for each kind of turn, with what it is turned into."""
    for kind, turn in (('message', turned_message), ('count', lost_message), ('refusal', turned_refusal)):
        stands_once = lambda line: sum(line.strip() in other for other in lines) == 1
        found = next((line for line in lines if re.match(' *(∷ )?(Ok|Err) ', line) and turn(line) and stands_once(line)), None)
        if found: yield kind, found.strip(), turn(found).strip()

# ---- the crate

MADE = 'Written by tools/scripts_to_antt.py; change the scripts or the tool, and not this file.'

NAMES = '''use Rattle.std.specs.Prelude.{true, false, [], ◌∷◌, Some, None, Ok, Err, codes}
use Rattle.zt_region.specs.declared.region.Bound.TheVariants as bound
use Rattle.zt_region.specs.declared.region.Region.TheVariants.{North, Local, South}
use Rattle.zt_region.specs.declared.region.WhatAmI.TheVariants.{Router, Peer, Client}
use Rattle.zt_protocol.specs.Plain.{%s}
use Rattle.zt_protocol.specs.declared.errors.Refusal.TheVariants as refusal
use Rattle.zt_protocol.specs.declared.interests.InterestMode.TheVariants.{Current, Future, CurrentFuture}
use Rattle.zt_protocol.specs.declared.messages.Message.TheVariants as message
use Rattle.zt_model_test.specs.Script.{Script, options, sent, zid}
''' % ', '.join([
    'DeclareToken', 'UndeclareToken', 'Interest', 'InterestFinal', 'DeclareFinal', 'CloseFace', 'SetEntities', 'Gateway', 'Session',
    'Face as FaceLine', 'Link as LinkLine', 'Unlink', 'Step', 'Speak', 'Moment', 'SetTreesAt'])

DEFINITIONS = Template('''-- Scripts and their transcripts, as the definitions speak of them.
-- $made
$names
$definitions''')

LAWS = Template('''-- The laws of these scripts, by evaluation.
-- $made
use Rattle.std.specs.Prelude.{refl}
use Rattle.zt_model_test.specs.Script.{ComesOut}
use Rattle.zt_model_test.specs.Part$n as part
use Rattle.zt_model_test.proofs.Opened.{opened}

$laws''')

LAW = Template('''pub $name : ComesOut part.$name
unfolding opened
$name = (refl, refl)
''')

ANSWERS = Template('''-- $made
use Rattle.zt_model_test.proofs.Part$n as law
use Rattle.zt_model_test.proofs.part_${n}_comes_out.Goals as goal

pub returns : goal.returns
returns g = record {
$clauses}
''')

OPENED = Template('''-- What evaluation opens: the definitions of zt_model that are closed otherwise.
-- $made
use Rattle.std.specs.Prelude.{ℕ}
$uses
unfoldable pub opened : ℕ
unfolding $names
opened = 0
''')

EDIT = Template('''file: specs/Part$n.antt
old: $old
new: $new
''')

FUNCTION = Template('''
/// The definitions give these scripts their transcripts and totals.
pub fn part_${n}_comes_out()
$clauses{}
''')

LIBRARY = Template('''//! The scripts of `tests/definitions`, worked by the definitions of `zt_model`: each law says that they give a script its
//! transcript, entry for entry. A law is named for its script.
//!
//! $made
#![tactic(auto)]

ghost use Rattle.zt_model_test.specs.Script.{ComesOut};
$uses$functions''')

def used(names, body):
    """The lines of imports, with the names alone that the body has."""
    words, kept = set(re.findall(r'(?<![.\w])[A-Za-z]+|\[\]|∷', body)), []
    for line in names.splitlines():
        listed_names = re.fullmatch(r'(.*)\{(.*)\}', line)
        if not listed_names:
            if re.search(r'\b%s\.' % line.split(' as ')[1], body): kept.append(line)
            continue
        found = [name for name in listed_names[2].split(', ') if name.split(' as ')[-1].strip('◌') in words]
        if found: kept.append('%s{%s}' % (listed_names[1], ', '.join(found)))
    return '\n'.join(kept) + '\n'

def unfoldable_names():
    """The definitions of zt_model that a proof by evaluation opens, by module."""
    for path in sorted(glob.glob(os.path.join(ROOT, 'crates', 'zt_model', 'specs', '*.antt'))):
        module = os.path.basename(path)[:-len('.antt')]
        names = re.findall(r'^\s*unfoldable pub (\w+) :', read(path), re.M)
        if names and module not in ('Promises', 'TreePromises', 'Journal', 'Sessions', 'Sourced'): yield module, names

def write(path, content):
    path = os.path.join(CRATE, path)
    os.makedirs(os.path.dirname(path), exist_ok=True)
    with open(path, 'w', encoding='utf-8') as file: file.write(content)

def edits_of(n, kind):
    """Where a wrong line of the n-th part stands: the gate tries one of each part, each time of another kind."""
    return 'must-fail' if kind == ('message', 'refusal', 'count')[(n - 1) % 3] else FURTHER_EDITS

def remove_parts():
    for pattern in ('specs/Part*.antt', 'proofs/Part*.antt', 'proofs/part_*/*.antt', 'must-fail/part_*.edit', FURTHER_EDITS + '/part_*.edit'):
        for path in glob.glob(os.path.join(CRATE, pattern)): os.remove(path)
    for folder in glob.glob(os.path.join(CRATE, 'proofs', 'part_*')): os.rmdir(folder)

def write_part(n, part):
    body = '\n'.join(definition for _, definition in part)
    write('specs/Part%d.antt' % n, DEFINITIONS.substitute(made=MADE, names=used(NAMES, body), definitions=body))
    laws = '\n'.join(LAW.substitute(name=name) for name, _ in part)
    write('proofs/Part%d.antt' % n, LAWS.substitute(made=MADE, n=n, laws=laws))
    clauses = ''.join('  %s = law.%s;\n' % (name, name) for name, _ in part)
    write('proofs/part_%d_comes_out/Answers.antt' % n, ANSWERS.substitute(made=MADE, n=n, clauses=clauses))
    for kind, old, new in wrong_lines(body.split('\n')):
        write(os.path.join(edits_of(n, kind), 'part_%d_other_%s.edit' % (n, kind)), EDIT.substitute(n=n, old=old, new=new))

def write_opened():
    modules = list(unfoldable_names())
    uses = ''.join('use Rattle.zt_model.specs.%s.{%s}\n' % (module, ', '.join(names)) for module, names in modules)
    write('proofs/Opened.antt', OPENED.substitute(made=MADE, uses=uses, names=' '.join(name for _, names in modules for name in names)))

def write_crate(bases):
    remove_parts()
    parts = list(enumerate(parts_of(bases), 1))
    for n, part in parts: write_part(n, part)
    write_opened()
    modules = ''.join('pub mod Part%d\n' % n for n, _ in parts)
    write('proofs/Lib.antt', 'pub mod Opened\n' + modules)
    write('specs/Lib.antt', 'pub mod Script\n' + modules)
    clauses = lambda n, part: ''.join('    ensures %s { ComesOut part%d.%s }\n' % (name, n, name) for name, _ in part)
    functions = ''.join(FUNCTION.substitute(n=n, clauses=clauses(n, part)) for n, part in parts)
    uses = ''.join('ghost use Rattle.zt_model_test.specs.Part%d as part%d;\n' % (n, n) for n, _ in parts)
    write('src/lib.rt', LIBRARY.substitute(made=MADE, uses=uses, functions=functions))
    print('%d scripts in %d parts' % (sum(len(part) for _, part in parts), len(parts)))

def main(words):
    bases = [path[:-len('.in')] for folder in words for path in glob.glob(os.path.join(folder, '*.in'))]
    if words[:1] == ['--only']: bases = words[1:]
    if not bases: sys.exit(__doc__)
    write_crate(sorted(filter(is_taken, bases), key=os.path.basename))

if __name__ == "__main__": main(sys.argv[1:])

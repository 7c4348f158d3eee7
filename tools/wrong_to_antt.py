#!/usr/bin/env python3
"""Writes the crate zt_promises_test: laws that each wrong transcript of a folder is refused by a promise.

usage: wrong_to_antt.py FOLDER            the laws of every wrong transcript in this folder
       wrong_to_antt.py --table FOLDER    prints which promise refuses which, for docs/PROMISES.md

NAME.in is a script, NAME.out the wrong transcript and NAME.breaks says in its first line what it breaks, and where, and
in its second what is wrong. The first line is a word of BREAKS below, the line of the script, and places in it: a
message of the entry, counted from 1; or a gateway, and one of its open faces in order, and then an ask or a message of
the face; or a key. What is written lies in src/, specs/ and proofs/ of the crate; specs/Wrong.antt and
proofs/Apart.antt alone are written by hand, and what is of premises by tools/premises_to_antt.py and hand.
"""
import glob, os, re, sys
from string import Template
sys.dont_write_bytecode = True
import scripts_to_antt as scripts

CRATE = os.path.join(scripts.ROOT, 'crates', 'zt_promises_test')
LINES_OF_A_PART = 400

# ---- proofs: the path to what fails, and why it can't be

def message(h, m): return h + '.1' * (int(m) - 1) + '.0'
def face(h, gateway, f): return message(message(h, gateway), f)

def never(term): return 'never %s refl' % term
def never_false(term): return 'never refl %s' % term
def differ(term): return 'differ _ _ %s refl' % term
def other_number(term): return 'other_number _ _ %s refl' % term

def cause(entry):
    if not entry.startswith('Err '): return 'other_cause _ _ h refl'
    if entry == 'Err refusal.IdsSpent': other = 'never p.2 refl'
    else: other = 'other_number _ _ (ap number_of p.0) refl'
    return '⊎_elim (λ e. other_cause _ _ e refl) (λ p. %s) h' % other

def interest_row(key, mode, options, k):
    return '(record { mode = %s; options = %s; expr = %s })' % (scripts.interest_mode(mode), scripts.bare(scripts.options(options)), scripts.bare(scripts.some(key(k))))

def ask(g, f, a): return '(%s refl)' % message(face('h', g, f), a)

# each word: the promise that is broken, its part, and the proof of it; `key` gives the number of a key
BREAKS = {
    'cause': ('HasItsCause', '', lambda key, entry: cause(entry)),
    'ids-by-call': ('LacksItsIds', '', lambda key, entry: 'other_cause _ _ (h refl).0 refl'),
    'in-order': ('IsInForm', 'in order', lambda key, entry, m: never(message('h.in_order', m))),
    'open-faces': ('NamesOpen', '', lambda key, entry, m: never(message('h', m))),
    'kept-is-visible': ('KeepsRightly', 'only what is visible', lambda key, entry, g, f, k: never('((%s refl).kept_is_visible %s refl)' % (face('h', g, f), key(k)))),
    'kept-is-sought': ('KeepsRightly', 'only what it seeks', lambda key, entry, g, f, k: never('((%s refl).kept_is_sought %s refl)' % (face('h', g, f), key(k)))),
    'admitted-is-kept': ('KeepsRightly', 'what is admitted and covered', lambda key, entry, g, f, k: never('((%s refl).admitted_is_kept %s refl refl)' % (face('h', g, f), key(k)))),
    'exact': ('KeepsExactly', '', lambda key, entry, g, f, k: differ('(%s refl refl %s refl)' % (face('h', g, f), key(k)))),
    'real-id': ('IsSparing', 'a real id', lambda key, entry, m: never('((%s refl).0)' % message('h', m))),
    'sought': ('IsSparing', 'what is sought', lambda key, entry, m: never('((%s refl).1)' % message('h', m))),
    'asked-for': ('IsSparing', 'what is asked for', lambda key, entry, m: never('(%s refl)' % message('h', m))),
    'admitted': ('IsMoreSparing', '', lambda key, entry, m: never('(%s refl refl)' % message('h', m))),
    'future': ('TellsTheFuture', '', lambda key, entry, f, k: never('(%s refl refl refl refl)' % message('(h.0 refl)', f))),
    'routers': ('TellsOfRouters', '', lambda key, entry, f, k: never('(%s refl refl refl refl)' % message('(h.0 refl)', f))),
    'at-once': ('AnswersAsks', 'at once', lambda key, entry, g, f, a, k: differ('(%s.at_once refl %s)' % (ask(g, f, a), key(k)))),
    'only-declared': ('AnswersAsks', 'only what is declared', lambda key, entry, g, f, a, k: never('(%s.only_declared refl %s refl)' % (ask(g, f, a), key(k)))),
    'each-declared': ('AnswersAsks', 'each that is declared', lambda key, entry, g, f, a, k: never('(%s.each_declared %s refl refl)' % (ask(g, f, a), key(k)))),
    'once': ('AnswersAsks', 'once', lambda key, entry, g, f, a: never('%s.once' % ask(g, f, a))),
    'finals': ('SendsFinals', 'when the ask ends', lambda key, entry, g, f, a: other_number(message(face('h.asks', g, f), a))),
    'final-of-some': ('SendsFinals', 'no others', lambda key, entry, m: never(message('h.no_others', m))),
    'come-last': ('SendsFinals', 'come last', lambda key, entry, g, f, n: never_false(message(face('h.come_last', g, f), n))),
    'initial': ('FinishesInitial', '', lambda key, entry, g, f: other_number('(%s refl)' % face('h', g, f))),
    'upstream': ('SendsUpstream', '', lambda key, entry, g, f: 'other_list _ _ %s refl' % face('h', g, f)),
    'upstream-ends': ('EndsUpstream', '', lambda key, entry, g, f, mode, options, k: differ('(%s refl %s)' % (face('h', g, f), interest_row(key, mode, options, k)))),
    'gone': ('UndeclaresWhatIsGone', '', lambda key, entry, m: never_false('(%s refl)' % message('h', m))),
    'was-kept': ('UndeclaresWhatWasKept', '', lambda key, entry, m: never(message('h', m))),
    'ids': ('DrawsNextIds', '', lambda key, entry, g, f, n: never(message(face('h', g, f), n))),
    'who-wants': ('ToWhoWants', '', lambda key, entry, g, f, n: never(message(face('h', g, f), n))),
    'entities': ('EntitiesDue', 'each once', lambda key, entry, g, f: 'other_list _ _ %s refl' % face('h', g, f)),
    'entities-order': ('EntitiesDue', 'in order', lambda key, entry, g, f: 'other_number _ _ (ap first_number %s) refl' % face('h', g, f)),
    'nodes': ('GivenNodes', '', lambda key, entry, m: never(message('h', m))),
    'ends': ('EndsWhatStands', '', lambda key, entry, g, f, n: never(message(face('h', g, f), n))),
}

# what is broken by the whole transcript
WHOLES = {
    'entries': ('LacksEntries', 'an entry for each line'),
    'totals': ('HasOtherTotals', 'the totals'),
    'machine': ('IsNotTheMachines', "the machine's own entries"),
}

# what a wrong transcript keeps: the promise, the line, and the proof
KEEPS = {
    'upstream_under_another_id': (
        'SendsFinals', 5, 'record { asks = ((tt, ((refl, tt), tt)), tt); no_others = (refl, tt); come_last = ((tt, ((refl, tt), tt)), tt) }'),
}

# the words of zt_model and of theorems for those of the crate
NAMED = {'ToWhoWants': 'UndeclaresToWhoWants', 'EntitiesDue': 'AnswersEntities', 'GivenNodes': 'PrintsGivenNodes',
         'HasItsCause': 'IsRefusedByCause', 'LacksItsIds': 'LacksIdsByCall', 'IsInForm': 'IsEntry', 'NamesOpen': 'NamesOpenFaces', 'KeepsRightly': 'KeepsWhatItShould',
         'LacksEntries': 'IsFaithfulFrom', 'HasOtherTotals': 'report_of', 'IsNotTheMachines': 'entries_from'}

class Wrong:
    def __init__(self, base):
        self.base, self.name = base, scripts.name_of(base)
        self.breaks, self.says = scripts.read(base + '.breaks').rstrip('\n').split('\n')
        self.word, *self.places = self.breaks.split(' ')
        self.definition = scripts.script_definition(base, whole=True)
        transcript = scripts.read(base + '.out')
        self.key = scripts.Keys()
        self.entries, self.totals = scripts.transcript_terms(transcript, self.key)
        for line in scripts.read(base + '.in').split('\n')[:-1]: scripts.line_term(line, self.key)
        self.key.settle()
        self.entries, self.totals = scripts.transcript_terms(transcript, self.key)
    def promise(self): return BREAKS[self.word][:2] if self.word in BREAKS else WHOLES[self.word]
    def statement(self, part):
        if self.word in WHOLES: return '%s %s.%s' % (WHOLES[self.word][0], part, self.name)
        return 'Refuses %s %s %s.%s' % (BREAKS[self.word][0], self.places[0], part, self.name)
    def laws(self, part):
        """Each law with its name and statement, and its proof."""
        yield self.name, self.statement(part), 'λ h. ' + self.proof()
        if self.name in KEEPS:
            promise, line, proof = KEEPS[self.name]
            yield self.name + '_keeps', 'Allows %s %d %s.%s' % (promise, line, part, self.name), proof
    def proof(self):
        if self.word in BREAKS: return BREAKS[self.word][2](self.key, self.entries[int(self.places[0]) - 1], *self.places[1:])
        if self.word == 'entries': return 'h' + '.3' * len(self.entries)
        if self.word == 'totals': return 'other_number _ _ (ap lines_of h) refl'
        return 'other_number _ _ (ap messages_of_all h) refl'

# ---- the crate

MADE = 'Written by tools/wrong_to_antt.py; change the transcripts or the tool, and not this file.'

DEFINITIONS = Template('''-- Wrong transcripts, as the definitions speak of them.
-- $made
$names
$definitions''')

LAWS = Template('''-- The laws of these wrong transcripts, by evaluation.
-- $made
$names
$laws''')

LAW = Template('''-- $says
pub $name : $statement
unfolding opened
$name = $proof
''')

NAMES = '''use Rattle.std.proofs.Common.{⊎_elim, Some, None, refl, ap}
use Rattle.zt_protocol.specs.Refusal.{number_of}
use Rattle.zt_protocol.specs.declared.interests.InterestMode.TheVariants.{Current, Future, CurrentFuture}
use Rattle.zt_model.specs.Promises.{%s}
use Rattle.zt_model_test.specs.Script.{options}
use Rattle.zt_promises_test.specs.Wrong.{%s}
use Rattle.zt_promises_test.specs.Part$n as part
use Rattle.zt_promises_test.proofs.Apart.{never, differ, other_number, other_list, other_cause, first_number, lines_of, messages_of_all}
use Rattle.zt_promises_test.proofs.Opened.{opened}
'''
OF_TURNS = ['KeepsExactly', 'IsSparing', 'IsMoreSparing', 'TellsTheFuture', 'TellsOfRouters', 'AnswersAsks', 'SendsFinals', 'FinishesInitial',
            'SendsUpstream', 'EndsUpstream', 'UndeclaresWhatIsGone', 'UndeclaresWhatWasKept', 'DrawsNextIds', 'EndsWhatStands']
OF_ENTRIES = ['Refuses', 'Allows', 'ToWhoWants', 'EntitiesDue', 'GivenNodes', 'HasItsCause', 'LacksItsIds', 'IsInForm', 'NamesOpen', 'KeepsRightly', 'LacksEntries', 'HasOtherTotals', 'IsNotTheMachines']

FUNCTION = Template('''
/// The promises refuse these transcripts.
pub fn part_${n}_is_refused()
$clauses{}
''')

ANSWERS = Template('''-- $made
use Rattle.zt_promises_test.proofs.Part$n as law
use Rattle.zt_promises_test.proofs.part_${n}_is_refused.Goals as goal

pub returns : goal.returns
returns g = record {
$clauses}
''')

LIBRARY = Template('''//! The wrong transcripts of `tests/wrong`: each breaks a promise of `zt_model` or of `zt_theorem_exact_messages`, but for
//! one that has other totals than its lines and one that no promise forbids, which alone isn't the machine's own. A law
//! is named for its script, and names the promise and the line whose entry breaks it. In `premises` stand the laws of
//! scripts that lack a premise of the promises over trees.
//!
//! $made
#![tactic(auto)]

pub mod premises;

$uses$functions''')

OPENED = Template('''-- What evaluation opens: the definitions of zt_model that are closed otherwise.
-- $made
use Rattle.std.specs.Prelude.{ℕ}
$uses
unfoldable pub opened : ℕ
unfolding $names
opened = 0
''')

def used(names, body):
    """The lines of imports, with the names alone that the body has."""
    kept = []
    for line in names.splitlines():
        listed = re.fullmatch(r'(.*)\{(.*)\}', line)
        if not listed: kept.append(line); continue
        found = [name for name in listed[2].split(', ') if re.search(r'(?<![.\w])%s(?!\w)' % re.escape(name), body)]
        if found: kept.append('%s{%s}' % (listed[1], ', '.join(found)))
    return '\n'.join(kept) + '\n'

def write(path, content):
    path = os.path.join(CRATE, path)
    os.makedirs(os.path.dirname(path), exist_ok=True)
    with open(path, 'w', encoding='utf-8') as file: file.write(content)

def parts_of(wrongs):
    parts, size = [], LINES_OF_A_PART
    for wrong in wrongs:
        lines = wrong.definition.count('\n') + 1
        if size + lines > LINES_OF_A_PART: parts.append([]); size = 0
        parts[-1].append(wrong); size += lines
    return list(enumerate(parts, 1))

def write_part(n, part):
    body = '\n'.join(wrong.definition for wrong in part)
    write('specs/Part%d.antt' % n, DEFINITIONS.substitute(made=MADE, names=scripts.used(scripts.NAMES, body), definitions=body))
    laws = '\n'.join(LAW.substitute(says=wrong.says, name=name, statement=statement, proof=proof) for wrong in part for name, statement, proof in wrong.laws('part'))
    names = Template(NAMES % (', '.join(OF_TURNS), ', '.join(OF_ENTRIES))).substitute(n=n)
    write('proofs/Part%d.antt' % n, LAWS.substitute(made=MADE, names=used(names, laws), laws=laws))
    clauses = ''.join('  %s = law.%s;\n' % (name, name) for wrong in part for name, _, _ in wrong.laws('part'))
    write('proofs/part_%d_is_refused/Answers.antt' % n, ANSWERS.substitute(made=MADE, n=n, clauses=clauses))

def write_opened():
    """All that is closed in zt_model, but for changes of plans, and in the promises that stand in a theorem."""
    modules = []
    for crate in ('zt_model', 'zt_theorem_exact_messages'):
        for path in sorted(glob.glob(os.path.join(scripts.ROOT, 'crates', crate, 'specs', '*.antt'))):
            module = os.path.basename(path)[:-len('.antt')]
            names = re.findall(r'^\s*unfoldable pub (\w+) :', scripts.read(path), re.M)
            if names and module not in ('Acts', 'Journal', 'Sessions', 'Sourced'): modules.append((crate + '.specs.' + module, names))
    uses = ''.join('use Rattle.%s.{%s}\n' % (module, ', '.join(names)) for module, names in modules)
    write('proofs/Opened.antt', OPENED.substitute(made=MADE, uses=uses, names=' '.join(name for _, names in modules for name in names)))

def write_crate(wrongs):
    parts = parts_of(wrongs)
    for n, part in parts: write_part(n, part)
    write_opened()
    modules = ''.join('pub mod Part%d\n' % n for n, _ in parts)
    write('proofs/Lib.antt', 'pub mod Apart\npub mod Opened\n' + modules + 'pub mod Kept\npub mod Lacking\npub mod Suffices\npub mod Tests\n')
    write('specs/Lib.antt', 'pub mod Wrong\n' + modules + 'pub mod Lacking\npub mod Premises\n')
    clauses = lambda n, part: ''.join('    ensures %s { %s }\n' % (name, statement) for wrong in part for name, statement, _ in wrong.laws('part%d' % n))
    functions = ''.join(FUNCTION.substitute(n=n, clauses=clauses(n, part)) for n, part in parts)
    here = lambda names: ', '.join(name for name in names if re.search(r'\b%s\b' % name, functions))
    uses = 'ghost use Rattle.zt_model.specs.Promises.{%s};\nghost use Rattle.zt_promises_test.specs.Wrong.{%s};\n' % (here(OF_TURNS), here(OF_ENTRIES))
    uses += ''.join('ghost use Rattle.zt_promises_test.specs.Part%d as part%d;\n' % (n, n) for n, _ in parts)
    write('src/lib.rt', LIBRARY.substitute(made=MADE, uses=uses, functions=functions))
    print('%d wrong transcripts in %d parts' % (len(wrongs), len(parts)))

def table(wrongs):
    for wrong in wrongs:
        promise, part = wrong.promise()
        line = 'line %s' % wrong.places[0] if wrong.places else 'the whole'
        print('| %s | %s | `%s`%s | %s |' % (os.path.basename(wrong.base), wrong.says, NAMED.get(promise, promise), ', ' + part if part else '', line))

def main(words):
    printing = words[:1] == ['--table']
    folders = words[1:] if printing else words
    if len(folders) != 1: sys.exit(__doc__)
    wrongs = [Wrong(path[:-len('.in')]) for path in sorted(glob.glob(os.path.join(folders[0], '*.in')))]
    if printing: table(wrongs)
    else: write_crate(wrongs)

if __name__ == "__main__": main(sys.argv[1:])

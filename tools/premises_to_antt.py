#!/usr/bin/env python3
"""Writes the part of zt_promises_test on premises: laws that each script of a folder wants a premise.

usage: premises_to_antt.py FOLDER            the laws of every script in this folder
       premises_to_antt.py --table FOLDER    prints which script wants which premise, for docs/PROMISES.md

NAME.in is a script and NAME.out its transcript, which is the machine's own. NAME.lacks says in its first line which
promise over trees it breaks, which premise alone it lacks, and where, and in its second what is seen. The first line is one
of these; KEY is the expression, FACE a plain face that has it live all the while, WAY the gateways from that which asks,
or knows, to that of this face:
    gets PREMISE ASKING FINAL KEY FACE WAY             the ask made in line ASKING, with its final in line FINAL,
                                                       isn't answered it
    only PREMISE ASKING FINAL KEY                      the ask is answered it
    moves ASKING FINAL KEY OWN FACE/WAY ..             the ask, of gateway OWN, isn't answered what after each of its turns another
                                                       face has live
    linked ASKING FINAL KEY FACE WAY                   the ask isn't answered what the face has live, whose gateway is joined later
    knows PREMISE LINE GATEWAY NUMBER KEY FACE WAY     after this line that face of the gateway, counted in order, doesn't keep it
    keeps PREMISE LINE GATEWAY NUMBER KEY              .. keeps it, and it is live nowhere
What `of-trees` lacks stands behind it: a line, a gateway, and one of these with a number, counted in order: `refused` with a
pair of its table; `south` with a face to the south, `north` with one to the north that ends no link, and `mode` with one to the
north of a gateway that is no client. A script without NAME.lacks lacks nothing: `KEPT` names it.
"""
import glob, os, re, sys
from string import Template
sys.dont_write_bytecode = True
import scripts_to_antt as scripts

CRATE = os.path.join(scripts.ROOT, 'crates', 'zt_promises_test')
KEPT = ['definitions/asks-in-a-tree', 'definitions/tree-echo', 'premises/root-with-other-regions']

# the word of a file, the definition, and what it says
PREMISES = {
    'nothing-waits': ('NothingWaits', 'nothing waits on a link'),
    'no-moment': ('NoMoment', 'no moment up to the final'),
    'no-unlinking': ('NoUnlinking', 'no unlinking up to the final'),
    'interest-stands': ('InterestStands', 'no end of its own interest up to the final'),
    'ids-left': ('IdsAreLeft', 'no line is refused for want of ids'),
    'of-trees': ('IsOfTrees', 'open faces form trees'),
}
OF_ASKS = ['nothing-waits', 'no-moment', 'no-unlinking', 'interest-stands', 'ids-left', 'of-trees']
OF_KNOWLEDGE = ['nothing-waits', 'ids-left', 'of-trees']

# the promise, its law, and the function that the laws stand on
PROMISES = {
    'gets': ('GetsWhatStays', 'GetsLessWithout', 'asks_get_less'),
    'only': ('GetsOnlyWhatWas', 'GetsMoreWithout', 'asks_get_more'),
    'knows': ('KnowsTrees', 'KnowsLessWithout', 'faces_know_less'),
    'keeps': ('KnowsTrees', 'KnowsLessWithout', 'faces_know_less'),
    'moves': ('GetsWhatStays', 'GetsLessOfMoving', 'asks_get_less'),
    'linked': ('GetsWhatStays', 'GetsLessOfLinked', 'asks_get_less'),
}

# what those say that lack no premise of the ask
STANDS_ON = {'moves': 'the token stays at one face', 'linked': 'the token is in the tree when the ask is made'}

# ---- proofs

def member(h, n): return h + '.1' * (int(n) - 1) + '.0'

def nested(terms):
    """A fact of each member of a list, from the facts of all."""
    return 'tt' if not terms else '(%s, %s)' % (terms[0], nested(terms[1:]))

def way_term(gateways):
    """The term of a walk along open links."""
    term = 'Itself %s' % gateways[0]
    for a, b in zip(gateways, gateways[1:]): term = 'Beyond %s %s %s (%s) refl' % (gateways[0], a, b, term)
    return term

def fails(premise, places):
    """Why a premise fails: what it comes to, if it holds, can't be."""
    if premise == 'nothing-waits': return 'λ h. never h refl'
    if premise != 'of-trees': return 'λ h. never refl h'
    line, gateway, what, number = places
    turn = member('h', line)
    if what == 'refused': return 'λ h. never refl %s' % member(member(turn + '.admitted', gateway), number)
    if what == 'south': return 'λ h. never %s refl' % member(member(turn + '.south', gateway), number)
    leads = '(%s refl)' % member(member(turn + '.north', gateway), number)
    return 'λ h. never %s.0 refl' % leads if what == 'mode' else 'λ h. never refl %s.1' % leads

class Lacking:
    def __init__(self, base):
        self.base, self.name = base, scripts.name_of(base)
        first, self.says = scripts.read(base + '.lacks').rstrip('\n').split('\n')
        self.promise, *self.places = first.split(' ')
        self.premise, self.premise_places = None, []
        if self.promise not in STANDS_ON: self.premise, *self.premise_places = self.places.pop(0).split(':')
        self.definition = scripts.script_definition(base, whole=True)
        self.key = scripts.Keys()
        self.lines = scripts.read(base + '.in').split('\n')[:-1]
        for line in self.lines: scripts.line_term(line, self.key)
        scripts.transcript_terms(scripts.read(base + '.out'), self.key)
        self.key.settle()
        self.turns = '(turns_in part.%s)' % self.name
    def statement(self):
        if not self.premise: return '%s part.%s' % (PROMISES[self.promise][1], self.name)
        number = '%s ' % self.places[0] if self.promise in ('knows', 'keeps') else ''
        return '%s %s %spart.%s' % (PROMISES[self.promise][1], PREMISES[self.premise][0], number, self.name)
    def premises(self):
        of = OF_KNOWLEDGE if self.promise in ('knows', 'keeps') else OF_ASKS
        holds = lambda p: 'trees_by %s refl' % self.turns if p == 'of-trees' else 'refl'
        return nested([fails(p, self.premise_places) if p == self.premise else holds(p) for p in of])
    def ask(self, asking, final):
        """The ask of a line, as a record."""
        face, interest_id, mode, options, expression = self.asked(asking)
        here = 'drop %d %s' % (asking - 1, self.turns)
        last = 'drop %d (rest_of (%s))' % (final - asking - 1, here)
        parts = dict(between='[]', ending='None', later='rest_of (%s)' % here, are='cut_at_own %d %s refl' % (asking - 1, self.turns))
        if asking < final: parts = dict(
            between='take %d (rest_of (%s))' % (final - asking - 1, here), ending='Some (first_turn (%s))' % last,
            later='rest_of (%s)' % last, are='cut_at_both %d %d %s refl refl' % (asking - 1, final - asking - 1, self.turns))
        there = 'some_is (face_numbered (first_turn (%s)).before %s) refl' % (here, face)
        return ASK.substitute(
            parts, earlier='take %d %s' % (asking - 1, self.turns), asking='first_turn (%s)' % here,
            face=face, id=interest_id, mode=mode, options=options[1:-1], expression=expression, there=there)
    def asked(self, line):
        word, face, interest_id, mode, options, *rest = self.lines[line - 1].split(' ')
        assert word == 'interest', line
        expression = scripts.optional(scripts.fields(rest), 'expr', self.key)
        return face, interest_id, scripts.interest_mode(mode), scripts.bare(scripts.options(options)), scripts.bare(expression)
    def stays(self, face, way):
        return STAYS.substitute(own=way[0], other=way[-1], face=face, way=way_term(way))
    def proof(self):
        return getattr(self, self.promise)()
    def gets(self):
        asking, final, key, face, way = self.places
        return MISSES.substitute(ask=self.ask(int(asking), int(final)), premises=self.premises(), key=self.key(key), stays=self.stays(face, way.split(',')))
    def only(self):
        asking, final, key = self.places
        ask = self.ask(int(asking), int(final))
        between = '[]' if asking == final else 'take %d (drop %s %s)' % (int(final) - int(asking) - 1, asking, self.turns)
        here = 'first_turn (drop %d %s)' % (int(asking) - 1, self.turns)
        nowhere = 'was_nowhere nat_cmp (matching_in part.%s) %s (%s ∷ %s) refl' % (self.name, self.key(key), here, between)
        return WAS_NOT.substitute(ask=ask, premises=self.premises(), key=self.key(key), nowhere=nowhere)
    def live(self, face, way):
        return 'record { face = %s; at_gateway = %s; place = refl; in_tree = %s; live = refl }' % (face, way[-1], way_term(way))
    def moves(self):
        asking, final, key, own, *lives = self.places
        terms = [self.live(face, way.split(',')) for face, way in (live.split('/') for live in lives)]
        here = 'drop %d %s' % (int(asking) - 1, self.turns)
        later = 'take %d (rest_of (%s))' % (int(final) - int(asking), here)
        moves = 'λ stays. none_stays nat_cmp (matching_in part.%s) %s (first_turn (%s)) (%s) refl stays.place stays.stays' % (self.name, self.key(key), here, later)
        return MOVES.substitute(ask=self.ask(int(asking), int(final)), premises=self.premises(), key=self.key(key), own=own, live=nested(terms), moves=moves)
    def linked(self):
        asking, final, key, face, way = self.places
        way = way.split(',')
        before = '(first_turn (drop %d %s)).before' % (int(asking) - 1, self.turns)
        inside = 'λ n. not (n == %s)' % way[-1]
        apart = 'λ tree. true≢false (same_tree_same_side %s (%s) %s %s refl tree)' % (before, inside, way[0], way[-1])
        return LINKED.substitute(
            ask=self.ask(int(asking), int(final)), premises=self.premises(), key=self.key(key), own=way[0], other=way[-1], face=face,
            apart=apart, joined=nested([way_term(way)]))
    def knows(self):
        line, gateway, number, key, face, way = self.places
        way = way.split(',')
        known = member(member('h', gateway), number)
        return KNOWS_NOT.substitute(number=line, turns=self.turns, premises=self.premises(), known=known, key=self.key(key), live=self.live(face, way))
    def keeps(self):
        line, gateway, number, key = self.places
        known = member(member('h', gateway), number)
        return KEEPS_STILL.substitute(number=line, turns=self.turns, premises=self.premises(), known=known, key=self.key(key), name=self.name)

ASK = Template('''record {
    earlier = $earlier;
    asking = $asking;
    between = $between;
    ending = $ending;
    later = $later;
    turns_are = $are;
    face = $face;
    id = $id;
    interest = record { mode = $mode; options = $options; expr = $expression };
    made = record {
      accepted = refl;
      plain = refl;
      options = $options;
      at = ($there).0;
      line = refl;
      there = ($there).1;
      kept = refl;
      current = refl;
      tokens = refl;
    };
    finished = (refl, refl);
  }''')

STAYS = Template('record { about = refl; own = $own; other = $other; place = $face; at_own = refl; in_tree = $way; at_other = refl; stays = refl }')

MISSES = Template('''record {
  ask = $ask;
  premises = $premises;
  expr = $key;
  stays = $stays;
  missed = refl;
}''')

MOVES = Template('''record {
  ask = $ask;
  premises = $premises;
  expr = $key;
  about = refl;
  own = $own;
  at_own = refl;
  live = $live;
  moves = $moves;
  missed = refl;
}''')

LINKED = Template('''record {
  ask = $ask;
  premises = $premises;
  expr = $key;
  about = refl;
  own = $own;
  other = $other;
  place = $face;
  at_own = refl;
  at_other = refl;
  apart = $apart;
  joined = $joined;
  stays = refl;
  missed = refl;
}''')

WAS_NOT = Template('''record {
  ask = $ask;
  premises = $premises;
  expr = $key;
  answered = refl;
  nowhere = λ was. $nowhere was;
}''')

KNOWS_NOT = Template('''record {
  turn = turn_at $number $turns;
  is_turn = turn_is $number $turns refl;
  premises = $premises;
  unknown = λ h. never (($known refl refl).live_is_kept $key refl ($live)) refl;
}''')

KEEPS_STILL = Template('''record {
  turn = turn_at $number $turns;
  is_turn = turn_is $number $turns refl;
  premises = $premises;
  unknown = λ h.
      let lives = ($known refl refl).kept_is_live $key refl refl in
      never lives.live (live_nowhere nat_cmp (matching_in part.$name) $key (turn_at $number $turns).after refl lives.face);
}''')

# ---- the crate

MADE = 'Written by tools/premises_to_antt.py; change the scripts or the tool, and not this file.'

DEFINITIONS = Template('''-- Scripts that lack a premise of a promise over trees, and three that lack none, as the definitions speak of them.
-- $made
$names
$definitions''')

LAWS = Template('''-- The laws of these scripts, by evaluation.
-- $made
$names
$laws''')

LAW = Template('''-- $says
pub $name : $statement
unfolding opened
$name = (
  (refl, refl),
  $proof,
)
''')

NAMES = '''use Rattle.std.proofs.Common.{◌==◌, not, [], ◌∷◌, take, drop, Some, None, refl, true≢false}
use Rattle.std.specs.Ordering.{nat_cmp}
use Rattle.zt_protocol.specs.declared.interests.InterestMode.TheVariants.{Current, Future, CurrentFuture}
use Rattle.zt_model.specs.Lists.{rest_of}
use Rattle.zt_model.specs.Transcript.{face_numbered}
use Rattle.zt_model.specs.TreePromises.{Itself, Beyond}
use Rattle.zt_model_test.specs.Script.{matching_in, options}
use Rattle.zt_promises_test.specs.Premises.{NothingWaits, NoMoment, NoUnlinking, InterestStands, IdsAreLeft, IsOfTrees, GetsLessWithout, GetsMoreWithout, KnowsLessWithout, GetsLessOfMoving, GetsLessOfLinked, turns_in}
use Rattle.zt_promises_test.specs.Lacking as part
use Rattle.zt_promises_test.proofs.Apart.{never}
use Rattle.zt_promises_test.proofs.Opened.{opened}
use Rattle.zt_promises_test.proofs.Tests.{cut_at_both, cut_at_own, first_turn, live_nowhere, none_stays, same_tree_same_side, some_is, trees_by, turn_at, turn_is, was_nowhere}
'''

def used(names, body):
    """The lines of imports, with the names alone that the body has."""
    kept = []
    for line in names.splitlines():
        listed = re.fullmatch(r'(.*)\{(.*)\}', line)
        if not listed: kept.append(line); continue
        has = lambda name: name.strip('◌') in body if not name[0].isalpha() else re.search(r'(?<![.\w])%s(?!\w)' % re.escape(name), body)
        found = [name for name in listed[2].split(', ') if has(name)]
        if found: kept.append('%s{%s}' % (listed[1], ', '.join(found)))
    return '\n'.join(kept) + '\n'

def write(path, content):
    path = os.path.join(CRATE, path)
    os.makedirs(os.path.dirname(path), exist_ok=True)
    with open(path, 'w', encoding='utf-8') as file: file.write(content)

def write_part(lacking):
    kept = [scripts.script_definition(os.path.join(scripts.ROOT, 'tests', name), whole=True) for name in KEPT]
    body = '\n'.join([l.definition for l in lacking] + kept)
    write('specs/Lacking.antt', DEFINITIONS.substitute(made=MADE, names=scripts.used(scripts.NAMES, body), definitions=body))
    laws = '\n'.join(LAW.substitute(says=l.says, name=l.name, statement=l.statement(), proof=l.proof().replace('\n', '\n  ')) for l in lacking)
    write('proofs/Lacking.antt', LAWS.substitute(made=MADE, names=used(NAMES, laws), laws=laws))

MODULE = Template("""//! What the promises over trees stand on: `premises_suffice` says that the premises are those of
//! the promises. Each other law is named for its script, and says that the definitions give the
//! script its transcript, and of this what it names: that a promise is broken and one premise alone
//! fails, or that the promises are kept. The scripts that lack a premise are those of
//! `tests/premises`, where `root-with-other-regions` lacks none; the two others stand in
//! `tests/definitions`.
//!
//! $made

ghost use Rattle.std.specs.Prelude.{ℕ, Bool, [], ◌∷◌};
ghost use Rattle.std.specs.declared.cmp.Ordering.{Ordering};
ghost use Rattle.zt_promises_test.specs.Lacking as part;
ghost use Rattle.zt_promises_test.specs.Premises.{$names};

/// The premises are those of the promises: of a transcript that keeps the promises over trees, what
/// they say holds wherever all of the premises do.
pub fn premises_suffice()
    ensures what_stays { (cmp : ℕ → ℕ → Ordering) (matching : ℕ → ℕ → Bool) → SufficeForWhatStays cmp matching }
    ensures what_was { (cmp : ℕ → ℕ → Ordering) (matching : ℕ → ℕ → Bool) → SufficeForWhatWas cmp matching }
    ensures knowledge { (cmp : ℕ → ℕ → Ordering) (matching : ℕ → ℕ → Bool) → SufficeForKnowledge cmp matching }
{}

/// Three scripts that lack no premise keep the promises: an ask gets the one token that stays, also
/// where the root lists a region of peers and refuses pairs of regions, and faces know their trees
/// after each turn of these numbers.
pub fn promises_are_kept()
    ensures asks_in_a_tree { GetsAlone 0 part.asks_in_a_tree }
    ensures root_with_other_regions { GetsAlone 0 part.root_with_other_regions }
    ensures tree_echo { KnowsAfter (14 ∷ 18 ∷ 21 ∷ 23 ∷ 28 ∷ []) part.tree_echo }
{}
$functions""")

FUNCTION = Template("""
/// $says
pub fn $name()
$clauses{}
""")

FUNCTIONS = [
    ('gets', 'Without the premise an ask isn\'t answered what stays; nor, with all premises, what moves or is\n/// linked later.'),
    ('only', 'Without the premise an ask is answered what was nowhere.'),
    ('knows', 'Without the premise a face doesn\'t know its tree after the turn of this number.'),
]

ANSWERS = Template("""-- $made
use Rattle.zt_promises_test.proofs.Lacking as law
use Rattle.zt_promises_test.proofs.premises.$function.Goals as goal

pub returns : goal.returns
returns g = record {
$clauses}
""")

def write_functions(lacking):
    functions = ''
    for promise, says in FUNCTIONS:
        name = PROMISES[promise][2]
        own = [l for l in lacking if PROMISES[l.promise][2] == name]
        functions += FUNCTION.substitute(says=says, name=name, clauses=''.join('    ensures %s { %s }\n' % (l.name, l.statement()) for l in own))
        clauses = ''.join('  %s = law.%s;\n' % (l.name, l.name) for l in own)
        write('proofs/premises/%s/Answers.antt' % name, ANSWERS.substitute(made=MADE, function=name, clauses=clauses))
    words = [term for term, _ in PREMISES.values()] + ['GetsLessWithout', 'GetsMoreWithout', 'KnowsLessWithout', 'GetsLessOfMoving', 'GetsLessOfLinked']
    names = [word for word in words if re.search(r'\b%s\b' % word, functions)]
    names += ['GetsAlone', 'KnowsAfter', 'SufficeForWhatStays', 'SufficeForWhatWas', 'SufficeForKnowledge']
    write('src/premises.rt', MODULE.substitute(made=MADE, names=', '.join(names), functions=functions))

def table(lacking):
    for l in sorted(lacking, key=lambda l: (list(PROMISES).index(l.promise) if l.premise else len(PROMISES), list(PREMISES).index(l.premise) if l.premise else l.name)):
        premise = PREMISES[l.premise][1] if l.premise else STANDS_ON[l.promise]
        print('| %s | `%s` | %s | %s |' % (os.path.basename(l.base), PROMISES[l.promise][0], premise, l.says))

def main(words):
    printing = words[:1] == ['--table']
    folders = words[1:] if printing else words
    if len(folders) != 1: sys.exit(__doc__)
    lacking = [Lacking(path[:-len('.lacks')]) for path in sorted(glob.glob(os.path.join(folders[0], '*.lacks')))]
    if printing: table(lacking)
    else: write_part(lacking); write_functions(lacking); print('%d scripts that lack a premise' % len(lacking))

if __name__ == "__main__": main(sys.argv[1:])

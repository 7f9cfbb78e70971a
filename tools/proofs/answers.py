"""Answers: the .ans files, read, shown and looked up. tools/prove.py says what an answer may look like."""
import re
from dataclasses import dataclass, field
from typing import NamedTuple

from .terms import chain_at, returns_at


class Answer(NamedTuple):
    unfolding: str
    term: str


SEARCH = Answer('', 'search needs')


@dataclass
class Member:
    """A member of a cycle, or the one function of a file."""
    measure: str = ''
    use: list = field(default_factory=list)
    extra: list = field(default_factory=list)           # the lines with a bar: definitions of its own
    needs: dict = field(default_factory=dict)           # need -> Answer, for the needs with an answer of their own


@dataclass
class Answers:
    kind: str                                           # cycle or function
    name: str                                           # its path below proofs/
    head: list = field(default_factory=list)            # the lines with a bar, of a function
    common: list = field(default_factory=list)          # use lines of a cycle's Common
    use: list = field(default_factory=list)             # use lines offered to all members
    reads: list = field(default_factory=list)           # the called functions, in the order of their use lines
    facts: list = field(default_factory=list)           # the calls whose ensures belong to @@facts
    writers: list = field(default_factory=list)         # the calls whose ensures belong to @@chain
    lent: list = field(default_factory=list)            # those of them that are lent the list of open indexes
    defaults: list = field(default_factory=list)        # (regular expression, Answer): first match wins
    order: list = field(default_factory=list)           # the members, in the order of their use lines
    lengths_last: bool = True                           # the needs same-length stand behind the others
    members: dict = field(default_factory=dict)         # name -> Member

    @property
    def is_cycle(self):
        return self.kind == 'cycle'

    def own_lines(self, member):
        """The lines with a bar: invariants stand in them."""
        return self.members[member].extra if self.is_cycle else self.head

    def answer(self, member, need, shape):
        """The answer of a need, its own or a default."""
        return self.members[member].needs.get(need) or self.default(need, shape)

    def default(self, need, shape):
        for pattern, answer in self.defaults:
            names_nothing = ('@@chain' in answer.term and not chain_at(shape, need, self)
                             or '@@returns' in answer.term and not returns_at(shape, need))
            if re.fullmatch(pattern, need) and not names_nothing:
                return answer
        return SEARCH


# ---------------------------------------------------------------- showing

def barred(lines):
    return ['| ' + line if line else '|' for line in lines]


def show_answer(name, answer):
    unfolding = f' unfolding {answer.unfolding}' if answer.unfolding else ''
    return name + unfolding + (' =' if answer.term.startswith('\n') else ' = ') + answer.term


def show_answers(answers):
    out = [f'{answers.kind} {answers.name}'] + barred(answers.head)
    out += ['common ' + line for line in answers.common] + answers.use
    for word in ('order', 'reads', 'facts', 'writers', 'lent'):
        if getattr(answers, word):
            out.append(word + ' ' + ' '.join(getattr(answers, word)))
    if not answers.lengths_last:
        out.append('same-length in place')
    out += [f'default {show_answer(pattern, answer)}' for pattern, answer in answers.defaults]
    for name, member in answers.members.items():
        out.append('')
        if answers.is_cycle:
            out += [f'member {name}', f'measure = {member.measure}']
        out += member.use + barred(member.extra)
        out += [show_answer(need, answer) for need, answer in member.needs.items()]
    return '\n'.join(out) + '\n'


# ---------------------------------------------------------------- reading

def entries(text):
    """The lines of an answers file without comments, each with the lines that belong to it: those that start with a space."""
    out = []
    behind_entry = False
    for line in text.split('\n'):
        if line.startswith('#'):
            continue
        if line.startswith(' ') and behind_entry:
            out[-1] += '\n' + line
        elif line.strip():
            out.append(line)
            behind_entry = True
        else:
            behind_entry = False
    return out


def read_answers(text):
    first, *rest = entries(text)
    kind, name = first.split(' ', 1)
    answers = Answers(kind, name)
    member = None
    if kind == 'function':
        member = answers.members[name] = Member()
    for entry in rest:
        word, _, value = entry.partition(' ')
        if word == 'member':
            member = answers.members[value] = Member('?')
        elif word == '|':
            (answers.head if kind == 'function' else member.extra).append(value)
        elif word == 'use':
            (member if member and kind == 'cycle' else answers).use.append(entry)
        elif word == 'common':
            answers.common.append(value)
        elif word in ('order', 'reads', 'facts', 'writers', 'lent') and '=' not in entry:
            setattr(answers, word, value.split())
        elif entry == 'same-length in place':
            answers.lengths_last = False
        else:
            read_answer(entry, answers, member)
    return answers


def read_answer(entry, answers, member):
    """A default, a measure, or the answer of a need."""
    m = re.fullmatch(r'(default )?(\S+)(?: unfolding ([^=\n]*?))? =(?: (.*)|(\n.*))?', entry, flags=re.S)
    if not m:
        raise SystemExit('answers: cannot read: ' + entry)
    default, name, unfolding = m.group(1), m.group(2), m.group(3) or ''
    answer = Answer(unfolding, m.group(4) or m.group(5) or '')
    if default:
        answers.defaults.append((name, answer))
    elif name == 'measure':
        member.measure = answer.term
    else:
        member.needs[name] = answer

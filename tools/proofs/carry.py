"""Carrying answers over: the code has changed, and with it the names and numbers of steps and needs.

The shape for which the answers were written is compared with the new one. Needs are matched in order, within a kind, by
how alike the ways to them are; the two ways of a matched pair are aligned step by step, and each `@x` of the answer gets
the name that its step has now. All that is not obvious is reported.
"""
import difflib
import functools
import re
from typing import NamedTuple

from .answers import Answer, Member
from .extract import REST, kind_of
from .terms import AT_START, NAMED, base, is_of_start


class WayStep(NamedTuple):
    label: str          # what the step is, without its number
    record: str
    things: list
    source: str


def label(record):
    m = re.match(r'At-match\d*-(.*)$', record)
    return 'match-' + m.group(1) if m else re.sub(r'\d+$', '', record)


def steps_to(shape, need):
    """The way to a need, from the start."""
    return [WayStep(label(record), record, things, shape.source.get(things[-1], '') if things else '')
            for record, things in reversed(shape.way(need))]


# ---------------------------------------------------------------- what belongs together

def align(left, right, likeness):
    """The pairs (i, j) of a common subsequence with the greatest sum of likeness (0: not a pair), and that sum."""
    n, m = len(left), len(right)
    best = [[0] * (m + 1) for _ in range(n + 1)]            # best[i][j]: the sum for left[i:] and right[j:]
    for i in range(n - 1, -1, -1):
        for j in range(m - 1, -1, -1):
            best[i][j] = max(best[i + 1][j], best[i][j + 1])
            like = likeness(left[i], right[j])
            if like and best[i + 1][j + 1] + like > best[i][j]:
                best[i][j] = best[i + 1][j + 1] + like
    pairs = []
    i = j = 0
    while i < n and j < m:
        like = likeness(left[i], right[j])
        if like and best[i][j] == best[i + 1][j + 1] + like:
            pairs.append((i, j))
            i, j = i + 1, j + 1
        elif best[i][j] == best[i + 1][j]:
            i += 1
        else:
            j += 1
    return pairs, best[0][0]


SAME_LABEL = 1000       # more than all else together: the longest subsequence comes first
SAME_RECORD = 1
SAME_SOURCE = 300
LIKE_SOURCE = 200       # at most
FULL_LIKENESS = SAME_LABEL + SAME_RECORD + SAME_SOURCE


def step_likeness(x, y):
    if x.label != y.label:
        return 0
    source = source_likeness(x.source, y.source) if x.source and y.source else 0
    return SAME_LABEL + (SAME_RECORD if x.record == y.record else 0) + source


@functools.cache
def source_likeness(a, b):
    return SAME_SOURCE if a == b else int(LIKE_SOURCE * difflib.SequenceMatcher(None, a, b).ratio())


def paired(old, new):
    """The steps of two ways, paired. In gaps of one length steps of one sort are paired too: a call of another function."""
    out = []
    last_i = last_j = -1
    for i, j in align(old, new, step_likeness)[0] + [(len(old), len(new))]:
        if i - last_i == j - last_j:
            gap = [(last_i + k, last_j + k) for k in range(1, i - last_i)]
            out += [(p, q) for p, q in gap if old[p].label.split('-')[0] == new[q].label.split('-')[0]]
        if i < len(old):
            out.append((i, j))
        last_i, last_j = i, j
    return out


def renamed_things(old, new, need, new_need):
    """(thing, the thing that it is now) along the ways to a matched pair of needs."""
    p, q = steps_to(old, need), steps_to(new, new_need)
    return [pair for i, j in paired(p, q) for pair in zip(p[i].things, q[j].things)]


def base_need(need):
    return re.sub(r'-\d+$', '', need)


def match_needs(old, new):
    """old need -> new need."""
    old_ways = {n: steps_to(old, n) for n in old.order}
    new_ways = {n: steps_to(new, n) for n in new.order}
    known = {}

    def of_one_name(x, y):
        if base_need(x) != base_need(y):
            return 0
        places = (old.needs[x], new.needs[y])
        if places not in known:
            p, q = old_ways[x], new_ways[y]
            known[places] = 2 * align(p, q, step_likeness)[1] / (FULL_LIKENESS * (len(p) + len(q)) or 1)
        return known[places] ** 4 + 0.01            # a close match is worth more than several poor ones

    def of_one_kind(x, y):
        p, q = old_ways[x], new_ways[y]
        if kind_of(x) != kind_of(y) or kind_of(x) == REST or not p or not q:
            return 0
        part = 2 * len(paired(p, q)) / (len(p) + len(q))
        return part if part > 0.9 else 0
    out = {old.order[i]: new.order[j] for i, j in align(old.order, new.order, of_one_name)[0]}
    # What is left, by kind and place: the needs of a call that is now one of another function
    old_left = [n for n in old.order if n not in out]
    new_left = [n for n in new.order if n not in out.values()]
    out.update((old_left[i], new_left[j]) for i, j in align(old_left, new_left, of_one_kind)[0])
    return out


# ---------------------------------------------------------------- loops

def loop_binders(shape, loop):
    """The names that an invariant binds: parameters, locals, then what the loop changes, whose values before are x₀."""
    said = shape.loops[loop]
    out = []
    for number in said['gets']:
        if number <= len(shape.parameters):
            name = shape.parameters[number - 1]
            out.append(name + ('₀' if name in said['vars'] else ''))
        else:
            out.append(f'local{number}')
    return out + said['vars']


def carry_binders(names, old, new, loop):
    """The names that an invariant binds, at the new shape: a local keeps its name, if one of its type is there."""
    was, now = old.loops[loop], new.loops[loop]
    unchanged = was == now and old.parameters == new.parameters
    if unchanged or len(names) != len(was['gets']) + len(was['vars']):
        return names
    old_locals = [(was['types'][i], names[i]) for i, k in enumerate(was['gets']) if k > len(old.parameters)]
    new_locals = [(now['types'][i], i) for i, k in enumerate(now['gets']) if k > len(new.parameters)]
    out = loop_binders(new, loop)
    for i, j in align(old_locals, new_locals, lambda x, y: x[0] == y[0])[0]:
        out[new_locals[j][1]] = old_locals[i][1]
    return out


def carry_invariants(lines, old, new):
    for i, line in enumerate(lines):
        m = re.match(r'(Inv|μ)-(\S+) (.*?) = ', line + ' ')
        if m and m.group(2) in old.loops and m.group(2) in new.loops:
            names = carry_binders(m.group(3).split(), old, new, m.group(2))
            lines[i] = (f'{m.group(1)}-{m.group(2)} {" ".join(names)} = ' + line[m.end():]).rstrip()


def loop_lines(shape, library):
    """Invariants and measures that are still to be said, for a function that has no answers yet."""
    out = []
    for loop in shape.loops:
        bound = ' '.join(loop_binders(shape, loop))
        out += ([''] if out else []) + [f'abbrev Inv-{loop} : {library}.InvT-{loop}', f'Inv-{loop} {bound} = ?', '',
                                         f'abbrev μ-{loop} : {library}.MeasureT-{loop}', f'μ-{loop} {bound} = ?']
    return out


# ---------------------------------------------------------------- the answers

def carry(answers, old, new, report):
    """Makes answers for the shapes `old` answers for the shapes `new`. How many are as they were, and how many are not."""
    carry_members(answers, new, report)
    same = moved = 0
    for name, member in answers.members.items():
        if name not in old or old[name] == new[name]:
            continue
        carry_invariants(answers.own_lines(name), old[name], new[name])
        matched = match_needs(old[name], new[name])
        carry_lists(answers, name, old[name], new[name], matched, report)
        before = member.needs
        carry_needs(member, name, old[name], new[name], matched, report)
        report_new_needs(answers, name, new[name], matched, report)
        kept = {matched[n]: (n, a) for n, a in before.items() if n in matched}
        unchanged = sum(kept[n] == (n, a) for n, a in member.needs.items())
        same += unchanged
        moved += len(member.needs) - unchanged
    return same, moved


def carry_members(answers, new, report):
    for name in answers.members:
        if name not in new:
            report.append(f'{name}: no such function now; its answers are dropped')
    for name, shape in new.items():
        if name not in answers.members:
            answers.members[name] = Member('?')
            report.append(f'{name}: a new member; its measure is `?`, its needs are answered by the defaults: '
                          + ', '.join(shape.order))
    answers.members = {name: answers.members[name] for name in new}


def carry_lists(answers, name, old, new, matched, report):
    """A call that stands where one of the facts or writers stood is one too."""
    for need, new_need in matched.items():
        for x, y in renamed_things(old, new, need, new_need):
            for word in ('facts', 'writers'):
                listed = getattr(answers, word)
                if base(x) != base(y) and base(x) in listed and base(y) not in listed:
                    setattr(answers, word, sorted(listed + [base(y)]))
                    report.append(f'{name}: {y} stands where {x} stood: {base(y)} is now one of the {word}')


def carry_needs(member, name, old, new, matched, report):
    carried, renamings = {}, {}
    for need, (unfolding, term) in member.needs.items():
        if need not in matched:
            report.append(f'{name} {need}: no such need now; its answer is dropped: {term[:100]}')
            continue
        new_need = matched[need]
        names = dict(renamed_things(old, new, need, new_need))
        gone = []
        carried[new_need] = Answer(unfolding, carry_term(term, old, need, names, matched, gone))
        if gone:
            report.append(f'{name} {new_need}: {", ".join(gone)} of {need} is not on its way now')
        for m in re.finditer(r'(?<!@)' + NAMED.pattern, term):
            x = m.group(1)
            if names.get(x, x) != x:
                renamings.setdefault(f'{x} → {names[x]}', []).append(new_need)
        if base_need(new_need) != base_need(need):
            report.append(f'{name} {new_need}: taken for {need}, by its place')
    for renaming, needs in renamings.items():
        report.append(f'{name}: @{renaming} in {", ".join(needs)}')
    member.needs = {n: carried[n] for n in new.order if n in carried}


def carry_term(term, old, need, names, matched, gone):
    """A term with the names that things and needs have now. Things that have none are left, and added to `gone`."""
    def thing(m):
        x, parameter = m.groups()
        if x.startswith('^') or x in AT_START and is_of_start(old, need, x):
            return m.group(0)
        if x not in names:
            gone.append(x)
            return m.group(0)
        return '@' + names[x] + (f'[{parameter}]' if parameter else '')

    def returns(m):
        return f'({matched.get(m.group(1), m.group(1))}{m.group(2) or ""} c)'
    term = re.sub(r'(?<!@)' + NAMED.pattern, thing, term)
    return re.sub(r'\((returns(?:-\d+)?)( t)? c\)', returns, term)


def report_new_needs(answers, name, shape, matched, report):
    known = set(matched.values())
    for need in shape.order:
        if need not in known:
            after = ', '.join(x for _, things in shape.way(need)[:3] for x in things)
            term = answers.default(need, shape).term
            report.append(f'{name} {need}: a new need, after {after}; answered by a default: {term[:80]}')

"""Answers from proof files: what follows from the shape is left out, what is commonest becomes a default."""
import re
import sys
from collections import Counter

from .answers import SEARCH, Answer, Answers, Member
from .layout import (function_name, generated_folder, lts_path, member_module, member_name, members_of, proofs_folder, read)
from .shapes import shape_of
from .terms import base, fold, name_arguments, name_facts
from .write import ARITH, NAT, NEEDS, cited_uses, use_parts

# Needs of one kind are answered alike. The last one is for the rest.
KINDS = [r'same-length(-\d+)?', r'returns(-\d+)?', r'enum-told(-\d+)?', r'enum-known-.*', r'slice-aggregate-.*',
         r'array-share-prefix-.*', r'cast-.*', r'(add|sub|mul)-.*', r'.*-requires(-\d+)?', r'.*']
REST = KINDS[-1]

NEED_HEADING = re.compile(r'^(\S+) : (?:\(t : ℕ\) → )?(?:lts|tie)\.Need-(\S+)')
SPEC_HEADING = re.compile(r'pub \S+-spec : \{M : Type 1\} → statement M')

# What Common uses whatever its measures are
COMMON = {'Prim.Native.Nat': ['ℕ', '_<_'], 'borrow.Fn.Kinds': ['In'],
          'borrow.Fn.PlainCycle': ['Measures', 'is', 'falls', 'and']}


def kind_of(need):
    return next(kind for kind in KINDS if re.fullmatch(kind, need))


def extract(crate, path, generated):
    """(Answers, shapes) from the proof files of a cycle or a function."""
    library = generated_folder(generated, crate)
    return (extract_cycle if path.split('/')[-1].startswith('+') else extract_function)(crate, path, library)


# ---------------------------------------------------------------- reading proof files

def paragraphs(text):
    return [p for p in re.split(r'\n\s*\n', text.strip('\n')) if p.strip()]


def read_need(paragraph):
    """(need, Answer) of a paragraph that answers a need; None for any other."""
    heading = NEED_HEADING.match(paragraph)
    if not heading or heading.group(1) != heading.group(2):
        return None
    lines = paragraph.split('\n')
    i = 1
    while i < len(lines) and lines[i].startswith((' ', ')')):           # the heading goes on
        i += 1
    unfolding = ''
    if i < len(lines) and lines[i].startswith('unfolding '):
        unfolding = lines[i].removeprefix('unfolding ').strip()
        i += 1
    body = '\n'.join(lines[i:])
    left = re.match(re.escape(heading.group(1)) + r' (?:t )?c(?: κs)? =(?: |(?=\n))', body)
    return (heading.group(1), Answer(unfolding, body[left.end():])) if left else None


def call_of(module, crate):
    """The function that a module Reads is of, as crate::module::function."""
    library, _, *rest = module.split('.')
    called = library.removeprefix('Rattle·')
    return '::'.join([crate if called.endswith('·proofs') else called] + rest)


def extract_function(crate, path, library):
    answers = Answers('function', path)
    answers.members[path] = Member()
    shape = shape_of(lts_path(library, path), crate, path)
    found, head = {}, []
    for paragraph in paragraphs(read(f'{proofs_folder(crate)}/{path}/Proof.antt')):
        need = read_need(paragraph)
        if need and need[0] in shape.needs:
            name, answer = need
            found[name] = Answer(answer.unfolding, name_facts(answer.term, shape, name, path))
        elif not SPEC_HEADING.match(paragraph):
            head.append(paragraph)
    answers.head = '\n\n'.join(head).split('\n')
    answers.lengths_last = list(found) != [n for n in shape.order if n in found]
    infer(answers, {path: found}, {path: shape})
    return answers, {path: shape}


def extract_cycle(crate, path, library):
    answers = Answers('cycle', path)
    folder = f'{proofs_folder(crate)}/{path}/Proof'
    common = read(f'{folder}/Common.antt')
    answers.common = common_uses(common)
    answers.reads = [call_of(x, crate) for x in re.findall(r'^use (\S+)\.Reads as \S+-reads$', common, flags=re.M)]
    names = [member_name(f) for f in members_of(path)]
    shapes, found, uses, bodies, orders = {}, {}, {}, {}, []
    for name in names:
        shapes[name] = shape_of(lts_path(library, path, function_name(name)), crate, name)
        measure = re.search(r'^μ-' + re.escape(name) + r' κs a = (.*)$', common, flags=re.M).group(1)
        answers.members[name] = Member(name_arguments(measure, shapes[name].parameters))
        head, *rest = paragraphs(read(f'{folder}/{member_module(name)}.antt'))
        found[name], bodies[name] = member_needs(answers.members[name], name, rest, shapes[name])
        uses[name] = [line for line in head.split('\n') if is_own_use(line)]
        orders.append([x for x in re.findall(r'\.Reads as (\S+)$', head, flags=re.M) if x in names])
    if any(order != sorted(order) for order in orders):         # else it is that of the names
        answers.order = merged(orders)
    answers.use = offered_uses(list(uses.values()))
    for name in names:
        answers.members[name].use = uses_before(name, uses[name], answers.use, bodies[name])
    infer(answers, found, shapes)
    return answers, shapes


def common_uses(text):
    """The use lines of Common that its measures need."""
    out = []
    for line in re.findall(r'^use .*$', text, flags=re.M):
        parts = use_parts(line)
        if line.endswith('  -- common'):
            out.append(line)
        elif parts:
            more = [x for x in parts[1] if x not in COMMON.get(parts[0], [])]
            if more:
                out.append(f'use {parts[0]}.{{{", ".join(more)}}}')
    return out


def member_needs(member, name, rest, shape):
    """(need -> Answer, the text that use lines are cited in) of a member's file behind its heading."""
    found, body = {}, []
    for paragraph in rest:
        need = read_need(paragraph)
        if need and need[0] not in shape.needs:
            print(f'  {name} {need[0]}: no such need now', file=sys.stderr)
        elif need:
            answer = need[1]
            found[need[0]] = Answer(answer.unfolding, name_facts(answer.term, shape, need[0], name))
            body.append(paragraph)
        elif not paragraph.startswith(('abbrev claims ', 'pub closed ')):
            member.extra += ([''] if member.extra else []) + paragraph.split('\n')
            body.append(paragraph)
    return found, '\n\n'.join(body)


# ---------------------------------------------------------------- the use lines of a cycle

def is_own_use(line):
    """Is it a use line that does not follow from the shape?"""
    follows = re.search(r'\.Reads as |\.Lts-\S+ as lts$|\.Proof\.Common\.\{', line)
    return line.startswith('use ') and not follows and line not in (NAT, NEEDS, ARITH)


def merged(lists):
    """One order of which each list is a part, as far as there is one."""
    before = {}
    for items in lists:
        for x in items:
            before.setdefault(x, set())
        for x, y in zip(items, items[1:]):
            before[y].add(x)
    left, out = list(before), []
    while left:
        ready = [x for x in left if all(y in out or y not in left for y in before[x])]
        out.append((ready or left)[0])
        left.remove(out[-1])
    return out


def offered_uses(headings):
    """Use lines of which each member's are a part. A module may stand in two lines: then its names are in two groups."""
    group = {}
    for lines in headings:
        seen = Counter()
        for module, names in filter(None, map(use_parts, lines)):
            for x in names:
                group[module, x] = max(group.get((module, x), 0), seen[module])
            seen[module] += 1

    def keys(lines):
        out = []
        for line in lines:
            parts = use_parts(line)
            out += dict.fromkeys((parts[0], group[parts[0], x]) for x in parts[1]) if parts else [(line, 0)]
        return out
    out = []
    for module, number in merged([keys(lines) for lines in headings]):
        names = merged([[x for x in parts[1] if group[module, x] == number]
                        for lines in headings for parts in map(use_parts, lines) if parts and parts[0] == module])
        out.append(f'use {module}.{{{", ".join(names)}}}' if names else module)
    return out


def uses_before(name, lines, offered, body):
    """The use lines that a member needs before those that are offered, so that it gets the lines that it has."""
    for k in range(len(lines) + 1):
        if cited_uses(lines[:k] + offered, body) == lines:
            return lines[:k]
    print(f'  {name}: the use lines differ from those that it would be given', file=sys.stderr)
    print('   ', '\n    '.join(lines), '\n  --\n   ', '\n    '.join(cited_uses(offered, body)), file=sys.stderr)
    return []


# ---------------------------------------------------------------- shorthands and defaults

def infer(answers, found, shapes):
    """From all answers (member -> need -> Answer): the lists of facts and writers, the defaults, and what is left."""
    terms = [answer.term for needs in found.values() for answer in needs.values()]
    answers.facts = sorted({x for term in terms for x in searched_calls(term)})
    answers.writers = sorted({x for term in terms for x in chained_calls(term)})
    for member, needs in found.items():
        for need, (unfolding, term) in needs.items():
            needs[need] = Answer(unfolding, fold(term, shapes[member], need, answers))
    answers.defaults = commonest(found)
    for member, needs in found.items():
        shape = shapes[member]
        answers.members[member].needs = {n: needs[n] for n in shape.order
                                         if n in needs and answers.default(n, shape) != needs[n]}
    kept = [answer for _, answer in answers.defaults]
    kept += [answer for member in answers.members.values() for answer in member.needs.values()]
    if not any('@@facts' in answer.term for answer in kept):
        answers.facts = []
    if not any('@@chain' in answer.term for answer in kept):
        answers.writers = []


def searched_calls(term):
    """The calls whose ensures are handed to `search` together with `pre`."""
    for m in re.finditer(r'search \(([^()]*), needs\)', term):
        handed = m.group(1).split(', ')
        if '@pre' in handed:
            called = [re.match(r"@([\w'-]+) \.ensures$", x) for x in handed]
            yield from (base(x.group(1)) for x in called if x)


def chained_calls(term):
    """The calls whose ensures are joined by ▸, or are the only one of a `wrote-by`."""
    for m in re.finditer(r'(?:@[\w\'-]+ \.ensures ▸ )+@[\w\'-]+ \.ensures', term):
        yield from (base(x) for x in re.findall(r"@([\w'-]+) \.ensures", m.group(0)))
    m = re.match(r"wrote-by \(@([\w'-]+) \.ensures\)", term)
    if m:
        yield base(m.group(1))


def commonest(found):
    """The defaults: the commonest answer of each kind, if it stands twice and names nothing that only some needs have."""
    count = {}
    for needs in found.values():
        for need, answer in needs.items():
            count.setdefault(kind_of(need), Counter())[answer] += 1
    out = []
    for kind in KINDS[:-1]:
        if kind in count:
            answer, times = count[kind].most_common(1)[0]
            if times > 1 and answer != SEARCH and not re.search(r'(?<!@)@(?!@)', answer.term):
                out.append((kind, answer))
    return out + [(REST, SEARCH)]

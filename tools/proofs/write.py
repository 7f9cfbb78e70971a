"""Proof files from answers and shapes: `write_files` gives the text of each file, by its path below the function's folder."""
import re
from dataclasses import dataclass

from .layout import function_name, member_module
from .terms import count_arguments, count_facts, expand

NAT = 'use Prim.Native.Nat.{ℕ}'
NEEDS = 'use borrow.Author.Needs.{needs}'
ARITH = 'use native.Mathlib.Omega.{arith}'
WIDTH = 99              # the longest line that rt fmt leaves alone


def write_files(answers, shapes, crate, report):
    """path below proofs/NAME -> text. What cannot be written is written as `?`, and `report` says so."""
    return (write_cycle if answers.is_cycle else write_function)(answers, shapes, crate, report)


# ---------------------------------------------------------------- use lines

def use_parts(line):
    """`use M.{a, b}` -> (M, [a, b]); None for any other line."""
    m = re.match(r'use (\S+)\.\{(.*)\}$', line)
    return (m.group(1), [x.strip() for x in m.group(2).split(',')]) if m else None


def tokens(text):
    return set(re.findall(r'[^\s(){},.;]+', text))


def cites(name, words):
    """Is a name among the words of a text? An operator is, if its parts are: _≡_ by ≡."""
    is_operator = name.startswith('_') or name.endswith('_')
    return name in words or is_operator and all(part in words for part in name.split('_') if part)


def cited_uses(uses, text):
    """Of the use lines that are offered, what the text cites, each name once."""
    words = tokens(text)
    out, done = [], set()
    for line in uses:
        parts = use_parts(line)
        if parts:
            module = parts[0]
            names = [x for x in parts[1] if cites(x, words) and (module, x) not in done]
            done |= {(module, x) for x in names}
            if names:
                out.append(f'use {module}.{{{", ".join(names)}}}')
        else:
            alias = re.search(r' as (\S+)$', line)
            if not alias or re.search(r'(?<![\w-])' + re.escape(alias.group(1)) + r'\.', text):
                out.append(line)
    return out


# ---------------------------------------------------------------- needs

def loop_arguments(lines):
    """The invariants and measures of loops that are defined in the lines: each need takes them."""
    return re.findall(r'^abbrev (Inv-\S+|μ-\S+) : (?:tie|lts)\.', '\n'.join(lines), flags=re.M)


def is_requires(need):
    return re.match(r'.*-requires(-\d+)?$', need)


def write_needs(answers, member, shape, report):
    """The paragraphs that answer the needs of a member."""
    needs = shape.order
    if answers.lengths_last:
        needs = sorted(needs, key=lambda n: n.startswith('same-length'))         # which keeps the order of each half
    loops = ''.join(' ' + x for x in loop_arguments(answers.own_lines(member)))
    out = []
    for need in needs:
        unfolding, term = answers.answer(member, need, shape)
        lost = []
        term = count_facts(expand(term, shape, need, answers), shape, need, lost)
        if lost:
            report.append(f'{member} {need}: names {", ".join(lost)}, which is not on its way: `?` is written')
        if answers.is_cycle:
            heading = f'{need} : (t : ℕ) → lts.Need-{need} (claims t) ({member}-at t) {member}.Post{loops}'
        else:
            heading = f'{need} : tie.Need-{need}{loops}'
        bound = ('t ' if answers.is_cycle else '') + ('c κs' if is_requires(need) else 'c')
        equation = f'{need} {bound} =' + ('' if term.startswith('\n') else ' ') + term
        out.append('\n'.join([heading] + ([f'unfolding {unfolding}'] if unfolding else []) + [equation]))
    return out


# ---------------------------------------------------------------- a function

def write_function(answers, shapes, crate, report):
    path = answers.name
    shape = shapes[path]
    needs = write_needs(answers, path, shape, report)
    name = path.split('/')[-1].replace('_', '-')
    end = closing(f'{name}-spec', loop_arguments(answers.head) + shape.order)
    return {'Proof.antt': '\n\n'.join(['\n'.join(answers.head), '\n\n'.join(needs), '\n'.join(end)]) + '\n'}


def closing(spec, arguments):
    """The last lines of a function's proof, broken as rt fmt breaks them."""
    heading = f'pub {spec} : {{M : Type 1}} → statement M'
    whole = '(' + ' '.join(['tie.spec'] + arguments) + ')' if arguments else 'tie.spec'
    if len(f'{spec} = tie.close {whole}') <= WIDTH:
        return [heading, f'{spec} = tie.close {whole}']
    if len(f'    tie.close {whole}') <= WIDTH:
        return [heading, f'{spec} =', f'    tie.close {whole}']
    if len(f'    {whole}') <= WIDTH:
        return [heading, f'{spec} =', '    tie.close', f'    {whole}']
    return [heading, f'{spec} =', '    tie.close', '    (tie.spec'] + ['    ' + x for x in arguments[:-1]] + [f'    {arguments[-1]})']


# ---------------------------------------------------------------- a cycle

@dataclass
class Cycle:
    """What the files of a cycle have in common."""
    crate: str
    own: str                # the module that the members stand in
    library: str            # the cycle's module
    members: list
    ordered: list           # the members, in the order of their use lines
    inner: set              # the members, as `calls` names them
    reads: list             # the called functions outside, in the order of their use lines
    short: dict             # the name that each of these has in the files
    reads_in_common: bool


def call_name(call):
    return call.split('::')[-1].replace('_', '-')


def reads_module(call, crate):
    called, *rest = call.split('::')
    library = f'Rattle·{crate}·proofs.proofs' if called == crate else f'Rattle·{called}.proofs'
    return '.'.join([library] + rest) + '.Reads'


def reads_line(call, cycle):
    return f'use {reads_module(call, cycle.crate)} as {cycle.short[call]}-reads'


def cycle_of(answers, shapes, crate):
    *above, folder = answers.name.split('/')
    own = '.'.join([f'Rattle·{crate}·proofs.proofs'] + above)
    members = list(answers.members)
    ordered = [m for m in answers.order if m in members]
    ordered += [m for m in members if m not in ordered]
    inner = {'::'.join([crate] + above + [function_name(m)]) for m in members}
    called = list(dict.fromkeys(call for m in members for call in shapes[m].calls if call not in inner))
    reads = [call for call in answers.reads if call in called]
    listed = bool(reads)
    for call in called:                             # one that the answers do not list yet: in the order of the alphabet
        if call not in reads:
            behind = [i for i, other in enumerate(reads) if other > call]
            reads.insert(behind[0] if behind else len(reads), call)
    short = {}
    for call in reads:                              # two functions of one name: the second by its whole path
        taken = call_name(call) in short.values()
        short[call] = call.replace('::', '-').replace('_', '-') if taken else call_name(call)
    return Cycle(crate, own, f'{own}.{folder}', members, ordered, inner, reads, short, listed)


def write_cycle(answers, shapes, crate, report):
    cycle = cycle_of(answers, shapes, crate)
    needs = {m: write_needs(answers, m, shapes[m], report) for m in cycle.members}
    files = {'Proof/Common.antt': common_file(answers, shapes, cycle, report)}
    for m in cycle.members:
        files[f'Proof/{member_module(m)}.antt'] = member_file(answers, m, shapes[m], cycle, needs[m])
    files['Proof.antt'] = root_file(cycle)
    return files


def common_file(answers, shapes, cycle, report):
    out = ['-- The measures of the cycle\'s members, and what each is given and asks at a measure.',
           'use Prim.Native.Nat.{ℕ, _<_}', 'use borrow.Fn.Kinds.{In}', 'use borrow.Fn.PlainCycle.{Measures, is, falls, and}']
    for m in cycle.members:
        module = f'{cycle.own}.{function_name(m)}'
        out += [f'use {module}.Reads as {m}', f'use {module}.Kinds as {m}-kinds']
    if cycle.reads_in_common:
        out += [reads_line(call, cycle) for call in cycle.reads]
    out += answers.common
    for m in cycle.members:
        lost = []
        measure = count_arguments(answers.members[m].measure, shapes[m].parameters, lost)
        if lost:
            report.append(f'{m} measure: names {", ".join(lost)}, which is no parameter: `?` is written')
        n = shapes[m].lifetimes
        kinds = f'{n} {m}-kinds.ps'
        out += ['', f'abbrev pub μ-{m} : Measures {kinds} ℕ', f'μ-{m} κs a = {measure}']
        out += ['', f'abbrev pub {m}-at : ℕ → In {kinds}', f'{m}-at t = and {kinds} (is {kinds} μ-{m} t) {m}.Pre']
        out += ['', f'abbrev pub {m}-below : ℕ → In {kinds}', f'{m}-below t = and {kinds} (falls {kinds} _<_ μ-{m} t) {m}.Pre']
    return '\n'.join(out) + '\n'


def member_file(answers, member, shape, cycle, needs):
    own = answers.members[member]
    claims, below = [], []
    for call in shape.calls:
        name = call_name(call)
        if call in cycle.inner:
            claims += [f'{name}-below t', f'{name}.Post']
            below.append(name)
        else:
            claims += [f'{cycle.short[call]}-reads.Asked', f'{cycle.short[call]}-reads.Learnt']
    body = '\n\n'.join((['\n'.join(own.extra)] if own.extra else []) + needs)
    words = tokens(body)
    out = [f'-- `{member}` meets its contract, below the measure t. Its needs are in the order of the code.', NAT]
    out += [NEEDS] if 'needs' in words else []
    out += [ARITH] if 'arith' in words else []
    out += cited_uses(own.use + answers.use, body)
    out += [f'use {cycle.own}.{function_name(m)}.Reads as {m}' for m in cycle.ordered if m == member or m in below]
    out += [reads_line(call, cycle) for call in cycle.reads if call in shape.calls]
    out += [f'use {cycle.library}.Lts-{function_name(member)} as lts']
    common = [f'{member}-at'] + [f'{m}-below' for m in cycle.ordered if m in below]
    out += [f'use {cycle.library}.Proof.Common.{{{", ".join(common)}}}', '']
    out += ['abbrev claims : ℕ → lts.Claims', f'claims t = ({", ".join(claims)})', '', body, '']
    arguments = loop_arguments(own.extra) + [f'({need} t)' for need in shape.order]
    out += [f'pub closed : {{M : Type 1}} (t : ℕ) → lts.Closed (claims t) ({member}-at t) {member}.Post M',
            f'closed t = lts.spec (claims t) ({member}-at t) {member}.Post ' + ' '.join(arguments)]
    return '\n'.join(out).rstrip() + '\n'


def root_file(cycle):
    members = cycle.members
    spec = '+' + '+'.join(members) + '-spec'
    measures = [f'μ-{m}' for m in members]
    out = ['-- The proof of the cycle of calls: a file for each member below `Proof/`.', '-- Assumes nothing.', 'mod Common']
    out += [f'mod {member_module(m)}' for m in members]
    out += [f'use {cycle.library}.Proof.Common.{{{", ".join(measures)}}}']
    out += [f'use {cycle.library}.Proof.{member_module(m)} as {m}-proof' for m in members]
    out += [f'use {cycle.library}.{{statement}}', f'use {cycle.library}.Tie.{{close}}', '']
    out += [f'pub {spec} : {{M : Type 1}} → statement M',
            f'{spec} = close ' + ' '.join(measures + [f'{m}-proof.closed' for m in members])]
    return '\n'.join(out) + '\n'

"""Terms: a fact is `@insert .ensures` in an answer and `c .before .. .insert .ensures` in a proof file.

Besides names there are three shorthands, since most answers of a crate are these lists and nothing else:
@@facts, @@chain and @@returns (see tools/prove.py).
"""
import re
import sys

COUNTED = re.compile(r"(?<![\w'·-])c((?:\s+\.before)*)\s+\.([^\s().,{}=;]+)")
NAMED = re.compile(r"@(\^?[\w'·-]+)(?:\[(\w+)\])?")
AT_START = ('κs', 'blocks', 'good', 'pre', 'args')      # what the start tells, whatever the function


def base(thing):
    """A thing without its number: text2 is a call of text."""
    return re.sub(r'\d+$', '', thing)


# ---------------------------------------------------------------- positions <-> names

def name_facts(term, shape, need, where):
    """c .before .. .thing -> @thing, and the part of a parameter in `good`, a pair for each, by the parameter's name."""
    by_place = {}
    for x, distance in shape.places(need).items():
        by_place.setdefault((distance, x.lstrip('^')), []).append(x)

    def name(m):
        distance = m.group(1).count('.before')
        names = by_place.get((distance, m.group(2)))
        if not names:
            print(f'  {where} {need}: no thing {m.group(2)} at {distance}', file=sys.stderr)
            return m.group(0)
        return '@' + min(names, key=len)

    def parameter(m):
        return f'{m.group(1)}[{shape.parameters[m.group(2).count(".1")]}]'
    return re.sub(r'(@\^?good)((?: \.1)*) \.0(?! \.\d)', parameter, COUNTED.sub(name, term))


def count_facts(term, shape, need, lost):
    """@thing -> c .before .. .thing. What is not on the way to the need becomes `?` and is added to `lost`."""
    places = shape.places(need)

    def count(m):
        x, parameter = m.groups()
        if x not in places:
            lost.append(x)
            return '?'
        if parameter and parameter not in shape.parameters:
            lost.append(f'{x}[{parameter}]')
            return '?'
        pair = ' .1' * shape.parameters.index(parameter) + ' .0' if parameter else ''
        return 'c' + ' .before' * places[x] + ' .' + x.lstrip('^') + pair
    return NAMED.sub(count, term)


def name_arguments(term, parameters):
    """a .1 .1 .0 -> a[name], in a measure."""
    def name(m):
        n = m.group(1).count('.1')
        return f'a[{parameters[n]}]' if n < len(parameters) else m.group(0)
    return re.sub(r'(?<![\w-])a((?: \.1)*) \.0(?![\d])', name, term)


def count_arguments(term, parameters, lost):
    def count(m):
        if m.group(1) not in parameters:
            lost.append(f'a[{m.group(1)}]')
            return '?'
        return 'a' + ' .1' * parameters.index(m.group(1)) + ' .0'
    return re.sub(r'(?<![\w-])a\[(\w+)\]', count, term)


# ---------------------------------------------------------------- shorthands

def facts_at(shape, need, calls):
    """@@facts: the tests on the way, nearest first, then the `ensures` of the calls that the answers list."""
    places = shape.places(need)
    tests = sorted((d, x) for x, d in places.items() if re.match(r'(if|match)[0-9]*$|pre$|fits$', x))
    called = sorted((d, x) for x, d in places.items() if base(x) in calls and not x.startswith('^') and x not in AT_START)
    return [f'@{x}' for _, x in tests] + [f'@{x} .ensures' for _, x in called]


def is_of_start(shape, need, thing):
    places = shape.places(need)
    return places.get(thing) == places.get('^' + thing)


def chain_at(shape, need, answers):
    """@@chain: the `ensures` of the writers that were called on the way, first to last."""
    called = sorted(((d, x) for x, d in shape.places(need).items()
                     if not x.startswith('^') and base(x) in answers.writers and not is_of_start(shape, need, x)), reverse=True)
    if not answers.lent:
        return ' ▸ '.join(f'@{x} .ensures' for _, x in called)
    return ' ▸▸ '.join(f'@{x} .ensures' if base(x) in answers.lent else f'plain (@{x} .ensures)' for _, x in called)


def returns_at(shape, need):
    """@@returns: the need `returns` that stands at the same place, or None."""
    for n in shape.order:
        if re.match(r'returns(-\d+)?$', n) and shape.needs[n] == shape.needs[need]:
            return n
    return None


def applied(need, in_cycle):
    return f'({need} t c)' if in_cycle else f'({need} c)'


def expand(term, shape, need, answers):
    """A term without shorthands."""
    if '@@facts' in term:
        term = term.replace('@@facts', ', '.join(facts_at(shape, need, answers.facts)))
    if '@@chain' in term:
        term = term.replace('@@chain', chain_at(shape, need, answers))
    if '@@returns' in term:
        returns = returns_at(shape, need)
        term = term.replace('@@returns', applied(returns, answers.is_cycle) if returns else '?')
    return term


def fold(term, shape, need, answers):
    """A term with shorthands where it says the same as they do."""
    facts = facts_at(shape, need, answers.facts)
    if len(facts) > 1 or facts == ['@pre']:
        term = re.sub(r'(?<=[( ])' + re.escape(', '.join(facts)) + r', needs\)', '@@facts, needs)', term)
    chain = chain_at(shape, need, answers)
    if chain:
        term = re.sub(r'^(wrote|writes)-by \(' + re.escape(chain) + r'\)', r'\1-by (@@chain)', term)
        term = term.replace('wrote-step ▸ ' + chain + ')', 'wrote-step ▸ @@chain)')
    returns = returns_at(shape, need)
    if returns:
        term = term.replace(applied(returns, answers.is_cycle), '@@returns')
    return term

"""Shapes: what rt says of a function.

rt makes a module `Lts` for each function, up to half a million lines of it. A shape is the little that the proof files
depend on: the parameters, a record for each step of the code with the step before it, the step at which each need
stands, the order of the needs and of the called functions, the loops. Shapes are kept as JSON beside the answers, so
that a changed function can be compared with what its answers were written for.
"""
import json
import os
import re
import sys
from dataclasses import dataclass, field


@dataclass
class Step:
    """A record of the Lts: the record before it ('' at the start) and the things that the step tells."""
    before: str
    things: list


@dataclass
class Shape:
    lifetimes: int = 0
    parameters: list = field(default_factory=list)
    steps: dict = field(default_factory=dict)       # record -> Step
    needs: dict = field(default_factory=dict)       # need -> the record at which it stands
    order: list = field(default_factory=list)       # the needs, as `spec` takes them
    calls: list = field(default_factory=list)       # the called functions, as `claims` takes them: crate::module::function
    loops: dict = field(default_factory=dict)       # loop -> types, vars, gets: see LtsReader
    source: dict = field(default_factory=dict)      # thing -> its text in the code, for calls and tests

    def to_json(self):
        steps = {name: ([['before', s.before]] if s.before else []) + [[x, ''] for x in s.things]
                 for name, s in self.steps.items()}
        return {'life': self.lifetimes, 'params': self.parameters, 'recs': steps, 'needs': self.needs,
                'order': self.order, 'calls': self.calls, 'loops': self.loops, 'src': self.source}

    @staticmethod
    def from_json(j):
        steps = {name: Step(dict(fields).get('before', ''), [x for x, _ in fields if x != 'before'])
                 for name, fields in j['recs'].items()}
        return Shape(j['life'], j['params'], steps, j['needs'], j['order'], j['calls'], j['loops'], j.get('src', {}))

    def way(self, need):
        """The steps from a need back to the start: (record, things) for each."""
        out = []
        record = self.needs[need]
        while record in self.steps:
            step = self.steps[record]
            out.append((record, step.things))
            record = step.before
        return out

    def places(self, need):
        """thing -> how many .before lead to it from the need. Things of the start stand under ^name too."""
        out = {}
        for distance, (record, things) in enumerate(self.way(need)):
            for x in things:
                out.setdefault(x, distance)
                if record == 'Start':
                    out['^' + x] = distance
        return out


def show_shapes(shapes):
    lines = [json.dumps(name) + ': ' + json.dumps(s.to_json(), ensure_ascii=False, separators=(',', ':'))
             for name, s in shapes.items()]
    return '{\n' + ',\n'.join(lines) + '\n}\n'


def load_shapes(path):
    with open(path) as f:
        return {name: Shape.from_json(j) for name, j in json.load(f).items()}


# ---------------------------------------------------------------- the Lts

RECORD = re.compile(r'^\s+pub record (\S+) : Type \d+ where')
FIELD = re.compile(r'^\s+pub (\S+) :\s*(.*)')
NEED = re.compile(r'^\s+Need-(\S+) =\s*(.*)')
PLACE = re.compile(r'\(c : (\S+)\)')
CALLEE = re.compile(r'"([\w:]+)"\)')
LIFETIMES = re.compile(r'abbrev pub ps : List\.List \(Kinds\.PK (\d+)\)')
LOOP_FIELD = re.compile(r'^ {10}pub (\S+) :', flags=re.M)


class LtsReader:
    """Reads the text of an Lts line by line. Of each loop it keeps `types` (of what its invariant binds), `gets` (which
    parameters and locals it binds as they were before the loop, by number) and `vars` (what the loop changes)."""

    def __init__(self):
        self.shape = Shape()
        self.record = None              # the record whose fields are being read: its name
        self.indent = 0                 # and the column where it starts
        self.need = None                # a need whose place stands in the next line
        self.order = None               # the arguments of `module _` so far: they are the needs, in order
        self.invariant = None           # (loop, lines) of an `InvT-LOOP`
        self.loop_fields = None         # (loop, lines) of a record `At-LOOP·own`
        self.previous = ''

    def read(self, line):
        self.gather_loop(line)
        if line[0] != ' ':
            self.top_level(line)
            return
        self.place_of_need(line)
        steps = (self.more_order, self.record_heading, self.record_field, self.need_heading, self.order_heading)
        if not any(step(line) for step in steps):
            m = CALLEE.search(line)
            if m and '::' in m.group(1) and m.group(1) not in self.shape.calls:
                self.shape.calls.append(m.group(1))
            self.previous = line.strip()

    def gather_loop(self, line):
        """What is said of a loop ends at an empty line."""
        if self.invariant is not None:
            loop, lines = self.invariant
            if line.strip():
                lines.append(line.strip())
            else:
                text = ' '.join(lines)
                self.loop(loop)['types'] = split_arrows(text[text.index('=') + 1:])[:-1]
                self.invariant = None
        if self.loop_fields is not None:
            loop, lines = self.loop_fields
            if line.strip():
                lines.append(line)
            else:
                text = ''.join(lines)
                self.loop(loop)['vars'] = [x for x in LOOP_FIELD.findall(text) if x not in ('inv', 'low', 'high', 'fits')]
                bound = text[text.find('pub inv :'):]
                self.loop(loop)['gets'] = [int(x) for x in re.findall(r'\(Row\.get\s+(\d+)', bound)]
                self.loop_fields = None

    def loop(self, name):
        return self.shape.loops.setdefault(name, {})

    def top_level(self, line):
        self.record = None
        m = re.match(r'InvT-(\S+) =', line)
        if m:
            self.invariant = (m.group(1), [line.strip()])
        m = LIFETIMES.match(line)
        if m and not self.shape.lifetimes:
            self.shape.lifetimes = int(m.group(1))

    def place_of_need(self, line):
        if self.need is not None:
            m = PLACE.search(line)
            self.shape.needs[self.need] = m.group(1) if m else None
            self.need = None

    def need_heading(self, line):
        m = NEED.match(line)
        if m:
            self.need = m.group(1)
            if PLACE.search(m.group(2)):
                self.place_of_need(m.group(2))
        return m

    def order_heading(self, line):
        start = line.strip()
        first = start.startswith('module _ (') or start.startswith('(') and self.previous == 'module _'
        if ': Need-' not in line or not first:
            return False
        self.order = ''
        return self.more_order(line)

    def more_order(self, line):
        if self.order is None:
            return False
        self.order += ' ' + line.strip()
        if line.rstrip().endswith('where'):
            self.shape.order = re.findall(r'\((\S+) : Need-\S+', self.order)
            self.order = None
        return True

    def record_heading(self, line):
        m = RECORD.match(line)
        if m:
            self.record = m.group(1)
            self.indent = column(line)
            if self.record.endswith('·own'):
                loop = self.record[len('At-'):-len('·own')]
                if self.record.startswith('At-') and loop in self.shape.loops:
                    self.loop_fields = (loop, [line])
                self.record = '·own'
            elif self.record != 'Args':
                self.shape.steps[self.record] = Step('', [])
        return m

    def record_field(self, line):
        if self.record is None:
            return False
        if column(line) <= self.indent:
            self.record = None
            return False
        m = FIELD.match(line) if column(line) == self.indent + 2 else None
        if m and self.record == 'Args':
            self.shape.parameters.append(m.group(1))
        elif m and self.record != '·own':
            step = self.shape.steps[self.record]
            if m.group(1) == 'before':
                step.before = m.group(2).split()[0] if m.group(2) else ''
            else:
                step.things.append(m.group(1))
        return m


def column(line):
    return len(line) - len(line.lstrip())


def split_arrows(text):
    """A type, cut at its outer arrows."""
    out, depth, part = [], 0, ''
    for char in text:
        depth += char in '({'
        depth -= char in ')}'
        if char == '→' and depth == 0:
            out.append(part.strip())
            part = ''
        else:
            part += char
    return out + [part.strip()]


def read_lts(path):
    reader = LtsReader()
    with open(path) as f:
        for line in f:
            reader.read(line)
    return reader.shape


# ---------------------------------------------------------------- the code

def function_body(crate, name):
    """The text between the braces of a function, without comments; '' if it is not the only one of its name."""
    found = []
    for folder, _, files in os.walk(f'crates/{crate}/src'):
        for file in files:
            with open(f'{folder}/{file}') as f:
                text = f.read()
            found += [text[m.start():] for m in re.finditer(r'\bfn ' + re.escape(name) + r'\(', text)]
    if len(found) != 1:
        return ''
    text = re.sub(r'//[^\n]*', '', found[0])
    m = re.search(r'^\{\n(.*?)^\}', text, flags=re.S | re.M)
    return m.group(1) if m else ''


def calls_in(body):
    """(function, arguments) of each call, in the order in which calls are made: a call is made where its arguments end."""
    literal = r'"(?:[^"\\]|\\.)*"|\'(?:[^\'\\]|\\.)\''
    bare = re.sub(literal, lambda m: '"' + '_' * (len(m.group(0)) - 2) + '"', body)       # no bracket inside a literal
    calls = []
    for m in re.finditer(r'(?:\w+::)*(\w+)\(', bare):
        depth, end = 0, m.end() - 1
        while end < len(body):
            depth += bare[end] == '('
            depth -= bare[end] == ')'
            if depth == 0:
                break
            end += 1
        calls.append((end, m.group(1).replace('_', '-'), ' '.join(body[m.end():end].split())))
    return [(name, arguments) for _, name, arguments in sorted(calls)]


def source_of(crate, name):
    """thing -> its text in the code: the arguments of calls, the tests of `if` and `while`. It tells apart steps of one name."""
    body = function_body(crate, name)
    out, count = {}, {}
    for called, arguments in calls_in(body):
        count[called] = count.get(called, 0) + 1
        out[called + (str(count[called]) if count[called] > 1 else '')] = arguments
    for i, m in enumerate(re.finditer(r'\b(?:if|while) (?!let\b)([^{]*)\{', body)):
        out[f'if{i + 1}'] = ' '.join(m.group(1).split())
    return out


def shape_of(path, crate, function):
    """The shape of a function from its Lts and its code. `function` is its path below proofs/, or a member's name."""
    shape = read_lts(path)
    if sorted(shape.order) != sorted(shape.needs) or None in shape.needs.values():
        print(f'  {function}: the needs of its Lts were not all read: has rt another layout?', file=sys.stderr)
    things = {x for step in shape.steps.values() for x in step.things}
    source = source_of(crate, function.split('/')[-1].replace('-', '_'))
    shape.source = {x: text for x, text in source.items() if x in things}
    return shape

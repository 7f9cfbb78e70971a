#!/usr/bin/env python3
"""Tests of tools/prove.py: `python3 tools/test_prove.py` in the root of the repository."""
import glob
import unittest

from proofs.answers import Answer, Answers, Member, read_answers, show_answers
from proofs.carry import carry
from proofs.check import LONGEST, longest_module
from proofs.layout import cycles_in, proofs_folder, read
from proofs.shapes import LtsReader, Shape, Step, load_shapes, show_shapes
from proofs.terms import count_facts, expand, name_facts
from proofs.write import write_files

LTS = '''
abbrev pub ps : List.List (Kinds.PK 2)

module Args where
  pub record Args : Type 0 where
    pub out : List
    pub n : Nat

  pub record Start : Type 1 where
    pub args : Args
    pub pre : Pre

  pub record After-text : Type 1 where
    pub before : Start
    pub text : Known

  pub record Then1 : Type 1 where
    pub before : After-text
    pub if1 : Left

  asked = of (name "pen::text")

  Need-text-requires = (c : Start) → Asked

  Need-returns =
    (c : Then1) → Post

  module _ (text-requires : Need-text-requires)
           (returns : Need-returns) where
'''


def small_shape():
    """text(out, n); if .. { return }"""
    steps = {'Start': Step('', ['args', 'good', 'pre']), 'After-text': Step('Start', ['text']), 'Then1': Step('After-text', ['if1'])}
    return Shape(1, ['out', 'n'], steps, {'text-requires': 'Start', 'returns': 'Then1'}, ['text-requires', 'returns'], ['pen::text'])


def longer_shape():
    """if .. { return }; text(out, n); if .. { return }"""
    steps = {'Start': Step('', ['args', 'good', 'pre']), 'Then1': Step('Start', ['if1']), 'Else1': Step('Start', ['if1']),
             'After-text': Step('Else1', ['text']), 'Then2': Step('After-text', ['if2'])}
    return Shape(1, ['out', 'n'], steps, {'returns': 'Then1', 'text-requires': 'Else1', 'returns-2': 'Then2'},
                 ['returns', 'text-requires', 'returns-2'], ['pen::text'])


class Files(unittest.TestCase):
    def test_answers_are_shown_as_they_are_read(self):
        paths = glob.glob('tools/proofs/samples/*.ans')
        self.assertTrue(paths)
        for path in paths:
            with self.subTest(path):
                self.assertEqual(show_answers(read_answers(read(path))), read(path))

    def test_shapes_are_shown_as_they_are_read(self):
        paths = glob.glob('tools/proofs/samples/*.shape')
        self.assertTrue(paths)
        for path in paths:
            with self.subTest(path):
                self.assertEqual(show_shapes(load_shapes(path)), read(path))

    def test_an_answer_of_several_lines(self):
        text = 'function f\n| -- F.\nsame-length in place\ndefault .* = search needs\n\nreturns unfolding g h =\n    a\n    b\nloop-holds = x\n  y\n'
        answers = read_answers(text)
        self.assertEqual(answers.members['f'].needs, {'returns': Answer('g h', '\n    a\n    b'), 'loop-holds': Answer('', 'x\n  y')})
        self.assertEqual(show_answers(answers), text)


class Shapes(unittest.TestCase):
    def test_an_lts_is_read(self):
        reader = LtsReader()
        for line in LTS.splitlines(keepends=True):
            reader.read(line)
        shape = reader.shape
        self.assertEqual((shape.lifetimes, shape.parameters, shape.calls), (2, ['out', 'n'], ['pen::text']))
        self.assertEqual(shape.needs, {'text-requires': 'Start', 'returns': 'Then1'})
        self.assertEqual(shape.order, ['text-requires', 'returns'])
        self.assertEqual(shape.way('returns'), [('Then1', ['if1']), ('After-text', ['text']), ('Start', ['args', 'pre'])])


class Terms(unittest.TestCase):
    NAMED = 'f (@if1 .taken) (@text .ensures .1) @good[n] @pre'
    COUNTED = 'f (c .if1 .taken) (c .before .text .ensures .1) c .before .before .good .1 .0 c .before .before .pre'

    def test_names_become_positions_and_back(self):
        lost = []
        self.assertEqual(count_facts(self.NAMED, small_shape(), 'returns', lost), self.COUNTED)
        self.assertEqual(lost, [])
        self.assertEqual(name_facts(self.COUNTED, small_shape(), 'returns', 'f'), self.NAMED)

    def test_what_is_not_on_the_way_is_lost(self):
        lost = []
        self.assertEqual(count_facts('f @if1 @good[out] @good[x]', small_shape(), 'text-requires', lost), 'f ? c .good .0 ?')
        self.assertEqual(lost, ['if1', 'good[x]'])

    def test_shorthands(self):
        answers = Answers('function', 'f', facts=['text'], writers=['text'])
        self.assertEqual(expand('@@facts; @@chain', small_shape(), 'returns', answers), '@if1, @pre, @text .ensures; @text .ensures')
        self.assertEqual(expand('@@returns', small_shape(), 'returns', answers), '(returns c)')

    def test_a_chain_of_writers_that_are_lent_the_list(self):
        steps = {'Start': Step('', ['args']), 'After-text': Step('Start', ['text']), 'After-emit': Step('After-text', ['emit'])}
        shape = Shape(1, ['out'], steps, {'returns': 'After-emit'}, ['returns'], ['pen::text', 'emit::emit'])
        answers = Answers('function', 'f', writers=['emit', 'text'], lent=['emit'])
        self.assertEqual(expand('@@chain', shape, 'returns', answers), 'plain (@text .ensures) ▸▸ @emit .ensures')


class Carrying(unittest.TestCase):
    def test_names_and_needs_follow_the_code(self):
        member = Member(needs={'returns': Answer('', 'law (@if1 .taken) (@text .ensures)')})
        answers = Answers('function', 'f', head=['-- F.'], defaults=[('.*', Answer('', 'search needs'))], members={'f': member})
        report = []
        self.assertEqual(carry(answers, {'f': small_shape()}, {'f': longer_shape()}, report), (0, 1))
        self.assertEqual(answers.members['f'].needs, {'returns-2': Answer('', 'law (@if2 .taken) (@text .ensures)')})
        self.assertIn('f: @if1 → if2 in returns-2', report)
        self.assertIn('f returns: a new need, after if1, args, good, pre; answered by a default: search needs', report)
        text = write_files(answers, {'f': longer_shape()}, 'c', report)['Proof.antt']
        self.assertIn('returns-2 c = law (c .if2 .taken) (c .before .text .ensures)\n', text)


class CycleNames(unittest.TestCase):
    def test_the_longest_name(self):
        self.assertEqual(longest_module('c', '+a+bc'), (len('Rattle·c·proofs.proofs.+a+bc.Proof.Common'.encode()), 'Rattle·c·proofs.proofs.+a+bc.Proof.Common'))
        for cycle in cycles_in(proofs_folder('emit')):
            self.assertLessEqual(longest_module('emit', cycle)[0], LONGEST)
        # a cycle that is named after its members, as older kits named them
        cycle = '+args+base+emit_arg_list+emit_array+emit_member_ptr+emit_method_args+emit_modifier+emit_other_ptr+emit_proc_ptr+emit_ptr+emit_ptr_helper+emit_return_type+emit_type+emit_type_index+emit_type_inner'
        length, _ = longest_module('emit', cycle)
        self.assertEqual(longest_module('emit', '+' + 'x' * (LONGEST - length) + cycle)[0], LONGEST + 1)


if __name__ == '__main__':
    unittest.main()

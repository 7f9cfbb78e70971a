#!/usr/bin/env python3
"""Proof files of functions, from short answers that name things and not positions.

A proof file answers the needs of a function. Its terms reach into `c`, the facts at the place of the need, by counting:
`c .before .before .. .insert .ensures .1`. A new parameter, local, call or branch moves every count behind it. So the
answers are kept with names, `@insert .ensures .1`, in crates/CRATE/answers/*.ans, and this tool writes the counted files
crates/CRATE/proofs/**/Proof.antt (of a cycle of calls: Proof/*.antt too) from them. They are not edited by hand.

  prove.py shape   CRATE             ask rt for the places and needs of CRATE's functions: as long as a check of CRATE
  prove.py write   CRATE [FN..]      the proof files from the answers; where the code's shape changed, the answers are
                                     carried over to the new shape first (and rewritten), and what is left is listed
  prove.py test    [CRATE [FN..]]    write into memory and compare with the files that stand there; without CRATE all
                                     crates, where no counted proof file may be without answers (proofs/by-hand.txt)
  prove.py things  CRATE FN [NEED..] the names that an answer may use at a need (FN: a member's or a function's name)
  prove.py new     CRATE FN..        answers for a function or a cycle that has none: every need by a default
  prove.py extract CRATE [FN..]      answers from the proof files that stand there: for proofs that were written by hand
  prove.py cycles                    fails where a module name of a cycle is too long to be kept with the proved crate

FN is a function's path below proofs/, as types/class, or + for the cycles of calls. Run it in the root of the repository.
`--saved` (write, test) goes by the shapes that are saved beside the answers, for which rt is not needed; `-n` (write, extract,
new) changes no file; `--gen DIR` is where what rt makes is put (target/prove/gen/CRATE). Options stand behind all names.

An answers file starts with `function PATH` or `cycle PATH`. Then, each on a line (a line that starts with a space goes on
with the answer above it; `#` starts a comment):

  NEED = term                   the answer of a need, with `c`, `t` and `κs` bound; most needs have a default instead
  NEED unfolding f g = term     with a line `unfolding f g`
  default RE = term             for each need that has no answer of its own and whose name RE matches: first match wins,
                                and one that would name nothing (@@chain with no writer on the way) is passed over
  facts F.., writers F..        the calls that @@facts and @@chain name
  lent F..                      the writers that are lent the list of open indexes: @@chain is then joined by ▸▸, and what
                                the others promise is given to `plain`
  | text                        as it is: a function's heading, invariants, definitions of its own. The names that
                                `Inv-..` and `μ-..` bind follow the code
  same-length in place          the needs same-length stand in the order of the code, not behind the others
and in a cycle
  member M, measure = term      what follows is of member M; its measure, over `a`
  use M.{..}                    before the members: offered to all, each file takes what it cites; in a member: first
  common use M.{..}             a use line of Common, where the measures stand
  order M.., reads F..          the order of use lines, where it is not that of the alphabet

In a term

  @x             is written c .before .. .x: the thing x on the way to the need, the nearest of this name
  @^x            the thing x of the start, where a step has the same name
  @good[p]       .good .1 .1 .. .0, the part of parameter p; and a[p], in a measure, a .1 .1 .. .0
  @@facts        every `if` and `match` on the way, `pre`, `fits`, then the `ensures` of the calls listed in `facts`
  @@chain        the `ensures` of the calls listed in `writers`, first to last, joined by ▸ (or ▸▸)
  @@returns      the answer of the `returns` that stands at the same place, applied

The parts of this tool are in tools/proofs.
"""
import argparse
import sys

from proofs import commands


NAMES = {'CRATE': {'dest': 'crate'},
         '[CRATE]': {'dest': 'crate', 'nargs': '?'},
         'FN': {'dest': 'function'},
         'FN..': {'dest': 'functions', 'nargs': '+'},
         '[FN..]': {'dest': 'functions', 'nargs': '*'},
         '[NEED..]': {'dest': 'needs', 'nargs': '*'}}

OPTIONS = {'--gen': {'metavar': 'DIR', 'help': 'where what rt makes is put (target/prove/gen/CRATE)'},
           '--saved': {'action': 'store_true', 'help': 'go by the shapes that are saved beside the answers'},
           '-n': {'dest': 'dry', 'action': 'store_true', 'help': 'change no file'}}

COMMANDS = {'shape': (commands.shape, 'CRATE --gen'),
            'write': (commands.write, 'CRATE [FN..] --gen --saved -n'),
            'test': (commands.test, '[CRATE] [FN..] --gen --saved'),
            'things': (commands.things, 'CRATE FN [NEED..] --gen'),
            'new': (commands.new, 'CRATE FN.. --gen -n'),
            'extract': (commands.extract_answers, 'CRATE [FN..] --gen -n'),
            'cycles': (commands.cycles, '')}


def parser():
    out = argparse.ArgumentParser(prog='prove.py', description=__doc__, usage='prove.py COMMAND ..',
                                  formatter_class=argparse.RawDescriptionHelpFormatter)
    add = out.add_subparsers(required=True, metavar='COMMAND', help=argparse.SUPPRESS, prog='prove.py').add_parser
    for name, (run, words) in COMMANDS.items():
        command = add(name)
        command.set_defaults(run=run)
        for word in words.split():
            if word in OPTIONS:
                command.add_argument(word, **OPTIONS[word])
            else:
                command.add_argument(metavar=word.strip('[.]'), **NAMES[word])
    return out


def main():
    args = parser().parse_args()
    return args.run(args)


if __name__ == '__main__':
    sys.exit(main())

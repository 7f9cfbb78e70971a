"""What the gate asks: do all proof files come from the answers, and are the names of cycles short enough."""
import glob
import os
import re
from dataclasses import dataclass

from .answers import Answers, read_answers
from .carry import carry
from .layout import (answers_folder, crates_with_answers, cycles_in, generated_folder, is_cycle, lts_path, member_module,
                     member_name, members_of, proofs_folder, read, shape_path)
from .shapes import load_shapes, shape_of
from .write import write_files

BY_HAND = os.path.join(os.path.dirname(__file__), 'by-hand.txt')


# ---------------------------------------------------------------- what the answers give

class NoShape(Exception):
    """rt makes nothing for a function that has answers."""


@dataclass
class Made:
    """The proof files that an answers file gives."""
    path: str               # of the answers file
    name: str               # of the cycle or function for which it was written
    answers: Answers        # carried over, if the shape changed
    shapes: dict
    changed: bool           # is the shape another than that of the saved ones?
    files: dict             # path below `folder` -> text
    folder: str
    said: list
    report: list

    def standing(self, file):
        """The text of a file that stands there, or None."""
        path = f'{self.folder}/{file}'
        return read(path) if os.path.exists(path) else None

    def differing(self):
        return [file for file, text in self.files.items() if self.standing(file) != text]


def answers_files(crate, only=()):
    """(path, Answers) of the answers of a crate, or of those functions; `+` stands for its cycles."""
    if not os.path.isdir(answers_folder(crate)):
        raise SystemExit(f'{answers_folder(crate)} is not there: `prove.py new` or `prove.py extract` makes answers')
    for file in sorted(os.listdir(answers_folder(crate))):
        if file.endswith('.ans'):
            path = f'{answers_folder(crate)}/{file}'
            answers = read_answers(read(path))
            if not only or answers.name in only or is_cycle(answers.name) and '+' in only:
                yield path, answers


def make(crate, path, answers, generated):
    """What answers give at the shapes that rt says now, or at the saved ones if `generated` is None."""
    name, said, report = answers.name, [], []
    saved = load_shapes(shape_path(path))
    shapes = saved
    if generated is not None:
        shapes = shapes_now(crate, answers, generated_folder(generated, crate), report)
    if shapes != saved:
        same, moved = carry(answers, saved, shapes, report)
        said.append(f'{name[:40]}: the shape changed; {same} answers as they were, {moved} carried over')
    files = write_files(answers, shapes, crate, report)
    folder = f'{proofs_folder(crate)}/{answers.name}'
    return Made(path, name, answers, shapes, shapes != saved, files, folder, said, report)


def shapes_now(crate, answers, library, report):
    """The shapes of the members, from rt's own modules. A cycle may have other members, and so another name, now."""
    if not answers.is_cycle:
        lts = lts_path(library, answers.name)
        if not os.path.exists(lts):
            raise NoShape(f'{answers.name}: rt makes no Lts for it now (gone, or in a cycle): left alone')
        return {answers.name: shape_of(lts, crate, answers.name)}
    above = os.path.dirname(answers.name)
    now = [x for x in cycles_in(library) if os.path.dirname(x) == above]
    if not now:
        raise NoShape('there is no cycle of calls now: left alone')
    if answers.name not in now:
        answers.name = max(now, key=lambda x: len(set(x.split('+')) & set(answers.name.split('+'))))
        report.append(f'the cycle is now {answers.name}')
    return {member_name(f): shape_of(lts_path(library, answers.name, f), crate, f) for f in members_of(answers.name)}


def first_difference(file, standing, made):
    """The first line in which a file differs, both ways."""
    old, new = (standing or '').split('\n'), made.split('\n')
    for i, (x, y) in enumerate(zip(old, new)):
        if x != y:
            return f'  {file}:{i + 1}\n    has  {x[:300]}\n    made {y[:300]}'
    return f'  {file}:{min(len(old), len(new)) + 1}\n    has  {len(old)} lines\n    made {len(new)} lines'


# ---------------------------------------------------------------- all crates

def by_hand():
    """file -> reason, of the counted proof files that are written by hand."""
    lines = [line for line in read(BY_HAND).split('\n') if line.strip() and not line.startswith('#')]
    return dict(line.split(': ', 1) for line in lines)


def counted_files(crate):
    """The proof files that reach facts by counting."""
    folder = glob.escape(proofs_folder(crate))
    files = glob.glob(f'{folder}/**/Proof.antt', recursive=True) + glob.glob(f'{folder}/**/Proof/*.antt', recursive=True)
    return sorted(file for file in files if '.before' in read(file))


def crate_complaints(crate, generated):
    """What is wrong with the answers of a crate: a text for each, and the files that they write."""
    complaints, written = [], []
    for path, answers in answers_files(crate):
        try:
            made = make(crate, path, answers, generated)
        except NoShape as reason:
            complaints.append(str(reason))
            continue
        complaints += made.said
        written += [f'{made.folder}/{file}' for file in made.files]
        for file in made.differing():
            standing = made.standing(file)
            if standing is None:
                complaints.append(f'{made.folder}/{file}: its answers write it, and it does not stand there')
            else:
                complaints.append(first_difference(f'{made.folder}/{file}', standing, made.files[file]).lstrip())
        complaints += made.report
    return complaints, written


def check_all(generated_of):
    """Prints a line for each crate whose files are those of its answers, and else what differs. Is all well?"""
    hand, all_written, good = by_hand(), set(), True
    for crate in sorted(os.listdir('crates')):
        if not os.path.isdir(proofs_folder(crate)):
            continue
        complaints, written = crate_complaints(crate, generated_of(crate)) if crate in crates_with_answers() else ([], [])
        all_written.update(written)
        complaints += [f'{file}: counts positions; no answers write it, and tools/proofs/by-hand.txt does not list it'
                       for file in counted_files(crate) if file not in written and file not in hand]
        if complaints:
            good = False
            print(f'{crate}:\n  ' + '\n  '.join(complaints))
        elif written:
            print(f'{crate}: proof files as the answers write them: {len(written)}')
    for file in hand:
        if file in all_written or not os.path.exists(file):
            good = False
            print(f'by-hand.txt lists {file}, which ' + ('answers write' if file in all_written else 'does not stand there'))
    return good


# ---------------------------------------------------------------- the names of cycles

# A proved crate keeps each checked module in a file MODULE.oantt, and a file's name has at most 255 bytes. Where a name is
# longer rt only notes it ("the rlib of .. carries no checked-module file"), and every crate above checks the module again.
LONGEST = 255 - len('.oantt')


def cycle_modules(crate, cycle):
    """The modules that rt and we make for a cycle: their names hold the crate's name and those of all members."""
    library = '.'.join([f'Rattle·{crate}·proofs.proofs'] + cycle.split('/'))
    yield f'{library}.Proof.Common'
    for function in members_of(cycle):
        yield f'{library}.Code.{function}'
        yield f'{library}.Lts-{function}'
        yield f'{library}.Proof.{member_module(member_name(function))}'


def longest_module(crate, cycle):
    """(bytes, name) of the longest of these names."""
    return max((len(module.encode()), module) for module in cycle_modules(crate, cycle))


def check_cycle_names():
    """Prints the longest name of each cycle. Is none too long?"""
    good = True
    for crate in sorted(os.listdir('crates')):
        for cycle in cycles_in(proofs_folder(crate)):
            length, name = longest_module(crate, cycle)
            end = re.search(r'\+[^+]*$', name).group(0)
            print(f'{crate}: the longest module name of a cycle has {length} bytes of {LONGEST}: ..{end}')
            if length > LONGEST:
                good = False
                print(f'{crate}: that is {length - LONGEST} too many. The proved crate would not keep its modules, and every crate above '
                      f'would check them again. Shorten the names of members: {cycle}')
    return good

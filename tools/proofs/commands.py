"""The commands of tools/prove.py. Each takes the arguments as argparse gives them, and answers with the exit status."""
import os
import re
import shutil
import subprocess
import time

from .answers import SEARCH, Answers, Member, show_answers
from .carry import loop_lines
from .check import NoShape, answers_files, check_all, check_cycle_names, first_difference, make
from .extract import REST, extract
from .layout import (answers_path, cycles_in, function_name, functions_in, generated_folder, is_cycle, lts_path, member_name,
                     members_of, proofs_folder, save, shape_path)
from .shapes import read_lts, shape_of, show_shapes


def generated_by(args, crate=None):
    """Where what rt makes of a crate is put; None if the saved shapes are to be used."""
    if getattr(args, 'saved', False):
        return None
    return args.gen or f'target/prove/gen/{crate or args.crate}'


def library_of(args):
    library = generated_folder(generated_by(args), args.crate)
    if not os.path.isdir(library):
        raise SystemExit(f'{library} is not there: run `prove.py shape {args.crate}` first')
    return library


# ---------------------------------------------------------------- shape

def shape(args):
    crate, generated = args.crate, generated_by(args)
    library = generated_folder(generated, crate)
    shutil.rmtree(generated, ignore_errors=True)
    os.makedirs(os.path.dirname(generated) or '.', exist_ok=True)
    start = time.time()
    while True:
        said = subprocess.run(['rt', 'dev', crate, '--generated', generated],
                              stdout=subprocess.PIPE, stderr=subprocess.STDOUT, text=True).stdout
        if os.path.isdir(library) or not set_aside(crate, said):
            break
    print(said.strip().split('\n')[-1], f'{time.time() - start:.0f} s')
    if not os.path.isdir(library):
        raise SystemExit(said[-3000:])
    return 0


def set_aside(crate, said):
    """rt makes nothing while the proof of a cycle or function that is no more stands there: moves its folder below target/."""
    m = re.search(r'help: delete the folder `([^`]*/crates/' + re.escape(crate) + r'/proofs/([^`]*))`', said)
    if not m or not os.path.isdir(m.group(1)):
        return False
    aside = f'target/prove/aside/{crate}/{m.group(2)}'
    shutil.rmtree(aside, ignore_errors=True)
    os.makedirs(os.path.dirname(aside), exist_ok=True)
    os.rename(m.group(1), aside)
    print(f'the folder {m.group(2)[:60]} is set aside in target/prove/aside')
    return True


# ---------------------------------------------------------------- extract, new

def save_answers(path, answers, shapes):
    save(path, show_answers(answers))
    save(shape_path(path), show_shapes(shapes))


def extract_answers(args):
    crate, only, library = args.crate, args.functions, library_of(args)
    folder = proofs_folder(crate)
    for name in cycles_in(folder) + functions_in(folder):
        if only and name not in only and not (is_cycle(name) and '+' in only):
            continue
        if not is_cycle(name) and not os.path.exists(lts_path(library, name)):
            print(f'{name}: proved by hand (no Lts), left out')
            continue
        answers, shapes = extract(crate, name, generated_by(args))
        if not args.dry:
            save_answers(answers_path(crate, name), answers, shapes)
        text = show_answers(answers)
        needs = sum(len(s.order) for s in shapes.values())
        own = sum(len(member.needs) for member in answers.members.values())
        print(f'{name[:40]}: {needs} needs, {own} answers of their own, {text.count(chr(10))} lines, {len(text)} bytes')
    return 0


def new(args):
    library = library_of(args)
    for name in args.functions:
        if name == '+':
            name = max(cycles_in(library), key=len)
        answers, shapes = (new_cycle if is_cycle(name) else new_function)(args.crate, name, library)
        answers.defaults = [(REST, SEARCH)]
        path = answers_path(args.crate, name)
        if os.path.exists(path):
            raise SystemExit(f'{path} is there')
        if not args.dry:
            save_answers(path, answers, shapes)
        print(f'{path}: {sum(len(s.order) for s in shapes.values())} needs, each by `search needs`')
    return 0


def new_cycle(crate, name, library):
    answers = Answers('cycle', name)
    shapes = {member_name(f): shape_of(lts_path(library, name, f), crate, f) for f in members_of(name)}
    for member, its_shape in shapes.items():
        answers.members[member] = Member('?', extra=loop_lines(its_shape, 'lts'))
    return answers, shapes


def new_function(crate, name, library):
    answers = Answers('function', name)
    answers.members[name] = Member()
    its_shape = shape_of(lts_path(library, name), crate, name)
    module = f'Rattle·{crate}·proofs.proofs.{name.replace("/", ".")}'
    answers.head = ['-- ?', '-- Assumes nothing.', 'use borrow.Author.Needs.{needs}',
                    f'use {module}.Statement.{{statement}}', f'use {module}.Tie as tie']
    loops = loop_lines(its_shape, 'tie')
    answers.head += [''] + loops if loops else []
    return answers, {name: its_shape}


# ---------------------------------------------------------------- write, test

def made_files(args):
    """What each answers file gives, printed as it goes."""
    if not args.saved:
        library_of(args)
    for path, answers in answers_files(args.crate, args.functions):
        try:
            made = make(args.crate, path, answers, generated_by(args))
        except NoShape as reason:
            print(reason)
            continue
        for line in made.said:
            print(line)
        yield made


def print_made(made, differing, word):
    lines = sum(text.count('\n') for text in made.files.values())
    same = len(made.files) - len(differing)
    print(f'{made.name[:40]}: {len(made.files)} files, {lines} lines; {same} as they stand, {len(differing)} {word}')
    for line in made.report:
        print('  ' + line)


def write(args):
    for made in made_files(args):
        differing = made.differing()
        if not args.dry:
            for file, text in made.files.items():
                save(f'{made.folder}/{file}', text)
            if made.answers.is_cycle:
                remove_stale(args.crate, made)
            if made.changed:
                save_answers(made.path, made.answers, made.shapes)
        print_made(made, differing, 'written')
    return 0


def remove_stale(crate, made):
    """The files of members that are no more, and the folder of a cycle that has another name now."""
    old_folder = f'{proofs_folder(crate)}/{made.name}'
    if made.answers.name != made.name and os.path.isdir(old_folder):
        shutil.rmtree(old_folder)
    for file in os.listdir(f'{made.folder}/Proof'):
        if f'Proof/{file}' not in made.files:
            os.remove(f'{made.folder}/Proof/{file}')


def test(args):
    if args.crate is None:
        return 0 if check_all(lambda crate: generated_by(args, crate)) else 1
    status = 0
    for made in made_files(args):
        differing = made.differing()
        for file in differing:
            print(first_difference(file, made.standing(file), made.files[file]))
            status = 1
        print_made(made, differing, 'differ')
    return status


# ---------------------------------------------------------------- things, cycles

def things(args):
    library, function = library_of(args), args.function
    lts = lts_path(library, function)
    for cycle in cycles_in(library):
        if os.path.exists(lts_path(library, cycle, function_name(function))):
            lts = lts_path(library, cycle, function_name(function))
    its_shape = read_lts(lts)
    print('parameters:', ' '.join(its_shape.parameters))
    for need in args.needs or its_shape.order:
        print(f'{need}: ' + ' > '.join(' '.join(names) for _, names in reversed(its_shape.way(need))))
    return 0


def cycles(args):
    return 0 if check_cycle_names() else 1

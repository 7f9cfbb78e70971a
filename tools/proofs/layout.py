"""Where proof files, answers and rt's own modules stand. All paths are relative to the root of the repository.

A cycle or a function is named by its path below crates/CRATE/proofs: `types/class`, or `+get_data_size+get_type_size` for
the cycle of calls of these two, whose members have a file each below Proof/.
"""
import os


def proofs_folder(crate):
    return f'crates/{crate}/proofs'


def answers_folder(crate):
    return f'crates/{crate}/answers'


def generated_folder(generated, crate):
    """Where `rt dev CRATE --generated` puts what it makes of the crate's own functions."""
    return f'{generated}/Rattle·{crate}·proofs/proofs'


def crates_with_answers():
    return sorted(crate for crate in os.listdir('crates') if os.path.isdir(answers_folder(crate)))


def is_cycle(path):
    return os.path.basename(path).startswith('+')


def members_of(cycle):
    """The members of a cycle as functions of the code: emit_ptr."""
    return os.path.basename(cycle)[1:].split('+')


def member_name(function):
    """A function of the code as answers and proof files name it: emit-ptr."""
    return function.replace('_', '-')


def function_name(member):
    return member.replace('-', '_')


def member_module(member):
    """The module of a member below Proof/: EmitPtr."""
    return ''.join(part.capitalize() for part in member.split('-'))


def cycles_in(folder):
    """The cycles below a folder, by their paths."""
    out = []
    for where, folders, _ in os.walk(folder):
        out += [os.path.relpath(f'{where}/{x}', folder) for x in folders if x.startswith('+')]
        folders[:] = [x for x in folders if not x.startswith('+')]
    return sorted(out)


def functions_in(folder):
    """The functions below a folder that have a proof file, without those of a cycle."""
    out = []
    for where, folders, files in os.walk(folder):
        folders[:] = [x for x in folders if not x.startswith('+')]
        if 'Proof.antt' in files:
            out.append(os.path.relpath(where, folder))
    return sorted(out)


def lts_path(library, path, function=None):
    """The Lts of a function, or of a function that is a member of the cycle `path`."""
    return f'{library}/{path}/Lts-{function}.antt' if function else f'{library}/{path}/Lts.antt'


def answers_path(crate, path):
    """types/class -> types.class.ans; a cycle is `cycle`, with its first member behind it where there are several."""
    name = path.replace('/', '.')
    if is_cycle(path):
        beside = [x for x in cycles_in(proofs_folder(crate)) if os.path.dirname(x) == os.path.dirname(path)]
        name = name[:name.index('+')] + 'cycle' + ('-' + path.split('+')[1] if len(beside) > 1 else '')
    return f'{answers_folder(crate)}/{name}.ans'


def shape_path(answers):
    """The shapes that answers were written for stand beside them."""
    return answers.removesuffix('.ans') + '.shape'


def read(path):
    with open(path) as f:
        return f.read()


def save(path, text):
    os.makedirs(os.path.dirname(path), exist_ok=True)
    with open(path, 'w') as f:
        f.write(text)

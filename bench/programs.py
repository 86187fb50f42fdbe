"""The programs that are measured: where they are, how they are built and how they are run. All are programs for x86-64."""
import pathlib
import shutil
import subprocess
import sys

HERE = pathlib.Path(__file__).resolve().parent
ROOT = HERE.parent
FLAGS = ['-std=c11', '-D_POSIX_C_SOURCE=200809L', '-O3', '-Wall', '-Wextra', '-Wconversion', '-static']
NAMES = ('replay', 'replay_sharing', 'rounds', 'copy')
COMPILERS = ('gcc', 'clang')
OURS = ('replay', 'replay_with', 'rounds')


def say(*words):
    """Progress goes to standard error; the tables alone go to standard output."""
    print(*words, file=sys.stderr, flush=True)


class Program:
    """One program: what the tables call it, and its file."""

    def __init__(self, name, path):
        self.name, self.path = name, pathlib.Path(path)

    def command(self, *arguments):
        """The words that run it."""
        return [str(self.path), *(str(a) for a in arguments)]


def versions():
    """The compilers of the C, by what they say of themselves."""
    for compiler in filter(shutil.which, COMPILERS):
        yield subprocess.run([compiler, '--version'], stdout=subprocess.PIPE, text=True, check=True).stdout.splitlines()[0] + ' ' + FLAGS[2]


def build_ours():
    """Proves and builds our programs, where that has not been done since their last change: where each is, by name."""
    found = {}
    for name in OURS:
        words = subprocess.run([str(ROOT / 'program'), '--words', name], stdout=subprocess.PIPE, text=True)
        if words.returncode != 0:
            sys.exit('bench: our programs could not be built')
        found[name] = Program('ours', words.stdout.strip())
    return found


def ours_in(folder):
    """Our programs by name, built before: in one folder, or where they are built. One that is missing is said and left out."""
    found = {}
    for name in OURS:
        path = folder / name if folder else ROOT / 'crates' / name / 'out' / name
        if path.exists():
            found[name] = Program('ours', path)
        else:
            say('there is no %s: what needs it is left out' % path)
    if 'replay' not in found:
        sys.exit('bench: without replay there is nothing to measure')
    return found


def build_c(folder):
    """The programs by hand in C, for each compiler that is there: {program: {compiler: Program}}."""
    built = {name: {} for name in NAMES}
    for compiler in COMPILERS:
        if shutil.which(compiler) is None:
            say('%s is not installed' % compiler)
            continue
        for name in NAMES:
            path = folder / ('%s.%s' % (name, compiler))
            done = subprocess.run([compiler, *FLAGS, str(HERE / 'c' / (name + '.c')), '-o', str(path)], stderr=subprocess.PIPE, text=True)
            if done.stderr:
                say(done.stderr)
            if done.returncode == 0:
                built[name][compiler] = Program(compiler, path)
    if not built['replay']:
        sys.exit('bench: no C compiler: install the Debian package gcc')
    return built

"""Runs the command lines of checks/cases; checks/quick.sh says how it is called, and checks/cases/README.md what a case is.

Each case runs in a folder where the files of all lie, and the texts that other cases gave. The program is a built one, or that which
the toolchain's try builds without proofs and with its checks.
"""

import fnmatch
import os
import re
import shlex
import shutil
import subprocess
import sys
import tempfile
import time
from multiprocessing.pool import ThreadPool

TOP = os.path.dirname(os.path.dirname(os.path.abspath(__file__)))
CASES = os.path.join(TOP, 'checks/cases')
ENDING = '.case'
SECONDS = 300  # that a case may take
BUILD_SECONDS = 600  # that the toolchain lets the program wait that is copied

STANDARD_INPUT = 'standard input'
STANDARD_ERROR = 'standard error'

# The statuses of this command.
DIFFERS, WRONG, NO_TOOLCHAIN = 1, 2, 7


class BadCase(Exception):
    """What is wrong with the file of a case."""


class Case:
    """The words of a command line, the answer that is wanted, and the files that stand beside them."""

    def __init__(self, path):
        self.path = os.path.relpath(path, TOP)
        self.name = os.path.basename(path)[:-len(ENDING)]
        self.words = None
        self.wanted = []  # lines of the answer, as they are written in the case
        self.status = None
        self.keeps = None  # the name under which other cases read the text
        self.is_slow = False  # for the program that the toolchain tries
        self.files = {}  # what stands behind a line `-- NAME --`
        with open(path, encoding='utf-8') as file:
            self.read(file.read())

    def fail(self, line, why):
        raise BadCase('%s:%d: %s' % (self.path, line, why))

    def read(self, text):
        if not text.endswith('\n'):
            self.fail(text.count('\n') + 1, 'the last line has no line feed')
        section = None
        for number, line in enumerate(text[:-1].split('\n'), 1):
            heading = re.fullmatch(r'-- (.+) --', line)
            if self.status is not None and heading:
                section = heading[1]
                if section in self.files or section.startswith(('/', '-')):
                    self.fail(number, 'no name for a file, or a name for the second time')
                self.files[section] = ''
            elif section is not None:
                self.files[section] += line + '\n'
            else:
                self.read_line(number, line)
        if self.status is None:
            self.fail(text.count('\n'), 'no line `status N`')

    def read_line(self, number, line):
        status = re.fullmatch(r'status (\d+)', line)
        kept = re.fullmatch(r'kept as (\S+)', line)
        if self.words is None:
            if line.startswith('$ fws') and line[5:6] in ('', ' '):
                self.words = shlex.split(line[5:])
                if any('\0' in word for word in self.words):
                    self.fail(number, 'a word with a byte 0, which no command line has')
            elif line and not line.startswith('#'):
                self.fail(number, 'neither a comment nor a command: `$ fws WORDS`')
        elif self.status is None and status:
            self.status = int(status[1])
        elif self.status is None:
            self.wanted.append(line)
        elif kept and self.keeps is None:
            self.keeps = kept[1]
        elif line == 'slow':
            self.is_slow = True
        else:
            self.fail(number, 'behind the status stands `kept as NAME`, `slow` or `-- NAME --`')

    def wanted_lines(self):
        """The lines of the answer as they are compared: text, or a regular expression, or None for any further lines."""
        return compared(self.wanted)

    def wanted_beside(self):
        """The lines of standard error as they are compared, or None where the case doesn't say."""
        text = self.files.get(STANDARD_ERROR)
        return None if text is None else compared(text.split('\n')[:-1])


def compared(lines):
    """Wanted lines as they are compared: text, or a regular expression, or None for any further lines."""
    found = []
    for line in lines:
        if line == '..':
            found.append(None)
        elif line.startswith('~ '):
            found.append(re.compile(line[2:]))
        elif line.startswith('< '):
            found += contents(line[2:]).decode('utf-8').split('\n')[:-1]
        else:
            found.append(line)
    return found


def contents(path):
    with open(os.path.join(TOP, path), 'rb') as file:
        return file.read()


# Reading all cases


def all_cases():
    """Each case, in the order in which they are run: first those that give texts which others read."""
    cases = []
    for name in sorted(os.listdir(CASES)):
        if name.endswith(ENDING):
            cases.append(Case(os.path.join(CASES, name)))
        elif name != 'README.md':
            raise BadCase('%s/%s: no case, since its name does not end in %s' % (os.path.relpath(CASES, TOP), name, ENDING))
    check_names(cases)
    texts = {case.keeps for case in cases}
    for case in cases:
        if case.keeps and texts & set(case.words):
            raise BadCase('%s: reads a text of another case and gives one itself' % case.path)
    return sorted(cases, key=lambda case: case.keeps is None)


def check_names(cases):
    """No two files have one name, and each is read by some case."""
    places = {}
    words = {word for case in cases for word in case.words}
    for case in cases:
        for name in [*case.files, *[case.keeps] * bool(case.keeps)]:
            if name in (STANDARD_INPUT, STANDARD_ERROR):
                continue
            if name in places or os.path.exists(os.path.join(TOP, name)):
                raise BadCase('%s: another file is named %s' % (case.path, name))
            if name not in words:
                raise BadCase('%s: no command line names the file %s' % (case.path, name))
            places[name] = case
        for line in case.wanted:
            if line.startswith('< ') and not os.path.isfile(os.path.join(TOP, line[2:])):
                raise BadCase('%s: %s is not there' % (case.path, line[2:]))
            if line.startswith('~ '):
                try:
                    re.compile(line[2:])
                except re.error as error:
                    raise BadCase('%s: %s: %s' % (case.path, line, error)) from error


def files_of(cases, every):
    """The files that the words of the cases name, of those that stand in some case and of those of the repository."""
    sections = {name: text for case in every for name, text in case.files.items() if name not in (STANDARD_INPUT, STANDARD_ERROR)}
    files = {}
    for word in {word for case in cases for word in case.words}:
        if word in sections:
            files[word] = sections[word].encode()
        elif word and not word.startswith('/') and os.path.isfile(os.path.join(TOP, word)):
            files[word] = contents(word)
    return files


def chosen(cases, forms):
    """The cases whose names have one of the forms, and those whose texts they read."""
    if not forms:
        return cases
    found = [case for case in cases if any(fnmatch.fnmatch(case.name, form) for form in forms)]
    read = {word for case in found for word in case.words}
    return [case for case in cases if case in found or case.keeps in read]


# Comparing


def shortened(text, place=0):
    """The text in quotes, from shortly ahead of the place if it is long."""
    if len(text) <= 160:
        return repr(text)
    begin = max(place - 60, 0)
    return '%s%r%s' % ('.. ' if begin else '', text[begin:begin + 160], ' ..' if begin + 160 < len(text) else '')


def described(wanted, place=0):
    return shortened(wanted, place) if isinstance(wanted, str) else 'a line of the form %s' % wanted.pattern


def fits(line, wanted):
    return line == wanted if isinstance(wanted, str) else wanted.fullmatch(line) is not None


def line_difference(number, line, wanted):
    """How a line of the answer differs from the one that is wanted there; None stands for no line."""
    place = 0
    if isinstance(wanted, str) and line is not None:
        place = next((k for k, (a, b) in enumerate(zip(line, wanted)) if a != b), min(len(line), len(wanted)))
    came = 'nothing' if line is None else shortened(line, place)
    if wanted is None:
        return 'line %d is %s, and no such line is wanted' % (number, came)
    return 'line %d is %s, not %s' % (number, came, described(wanted, place))


def matches_at(lines, begin, wanted):
    return begin + len(wanted) <= len(lines) and all(fits(line, form) for line, form in zip(lines[begin:], wanted))


def text_difference(text, wanted):
    """How the text differs from the wanted lines, or None."""
    lines = text.split('\n')
    if lines.pop():
        return 'the answer ends in no line feed: %s' % shortened(text[-80:])
    parts = [[]]
    for line in wanted:
        if line is None:
            parts.append([])
        else:
            parts[-1].append(line)
    first, last = parts[0], parts[-1]
    if len(parts) == 1 or not matches_at(lines, 0, first):
        for number in range(max(len(lines), len(first)) if len(parts) == 1 else len(first)):
            line = lines[number] if number < len(lines) else None
            form = first[number] if number < len(first) else None
            if line is None or form is None or not fits(line, form):
                return line_difference(number + 1, line, form)
        return None
    place = len(first)
    for part in parts[1:-1]:
        found = next((k for k in range(place, len(lines)) if matches_at(lines, k, part)), None)
        if found is None:
            return 'behind line %d none is %s' % (place, described(part[0]))
        place = found + len(part)
    if len(lines) - len(last) < place or not matches_at(lines, len(lines) - len(last), last):
        return 'the answer does not end in %s' % ' / '.join(described(form) for form in last)
    return None


class Tally:
    """How many cases passed and failed."""

    def __init__(self):
        self.passed = self.failed = 0

    def judge(self, case, status, text, told=b''):
        """Compares an answer, and what was told on standard error, or why there is no status."""
        why = self.difference(case, status, text, told)
        if why is None:
            self.passed += 1
            return
        self.failed += 1
        print('%s: %s' % (case.path, why))
        for line in told.decode('utf-8', 'replace').splitlines()[:20]:
            print('    ' + line)
        sys.stdout.flush()

    @staticmethod
    def difference(case, status, text, told):
        if status is None:
            return 'no answer'
        text = text.decode('utf-8', 'backslashreplace')
        if status != case.status:
            return 'status %d, not %d; the answer begins %s' % (status, case.status, shortened(text.partition('\n')[0]))
        why = text_difference(text, case.wanted_lines())
        beside = case.wanted_beside()
        if why is None and beside is not None:
            why = text_difference(told.decode('utf-8', 'backslashreplace'), beside)
            why = why and 'standard error: ' + why
        return why


# Running


def run_case(command, case, folder):
    """The status and the answer of a case, or None and lines on why there is none."""
    told = case.files.get(STANDARD_INPUT, '').encode()
    try:
        ended = subprocess.run([*command, *case.words], cwd=folder, env={}, input=told, stdout=subprocess.PIPE,
                               stderr=subprocess.PIPE, timeout=SECONDS, check=False)
    except subprocess.TimeoutExpired:
        return None, b'', b'it had not ended after %d seconds' % SECONDS
    return ended.returncode, ended.stdout, ended.stderr


def run_cases(command, cases, files, tally):
    """Runs the cases in a folder where their files lie, as many at a time as there are processors: first those that give texts."""
    with tempfile.TemporaryDirectory() as folder, ThreadPool(len(os.sched_getaffinity(0))) as pool:
        for name, text in files.items():
            path = os.path.join(folder, name)
            os.makedirs(os.path.dirname(path), exist_ok=True)
            with open(path, 'wb') as file:
                file.write(text)
        for part in ([case for case in cases if case.keeps], [case for case in cases if not case.keeps]):
            for case, (status, text, told) in zip(part, pool.imap(lambda case: run_case(command, case, folder), part)):
                tally.judge(case, status, text, told)
                if case.keeps:
                    with open(os.path.join(folder, case.keeps), 'wb') as file:
                        file.write(text)


# The program that the toolchain builds without proofs


def processes():
    """The words with which each process was started that can be looked at."""
    for number in filter(str.isdigit, os.listdir('/proc')):
        try:
            with open('/proc/%s/cmdline' % number, 'rb') as file:
                yield [os.fsdecode(word) for word in file.read().split(b'\0')[:-1]]
        except OSError:
            pass  # it has ended, or isn't ours


def is_program(path):
    try:
        with open(path, 'rb') as file:
            return file.read(4) == b'\x7fELF'
    except (OSError, ValueError):
        return False


def started_with(words):
    """The words ahead of these with which a program was started, if one runs."""
    for found in processes():
        command = found[:-len(words)]
        if found[-len(words):] == words and command and is_program(command[-1]):
            return command
    return None


def build_unproved(folder):
    """The words that start the program, of which a copy lies in the folder; or None, and what the toolchain said.

    The toolchain's try builds the program, runs it in a folder of its own, and throws both away. So it is let run on a named pipe
    into which nobody writes: there it waits while it is copied.
    """
    pipe = os.path.join(folder, 'pipe')
    os.mkfifo(pipe)
    words = ['site2', pipe]
    with open(os.path.join(folder, 'told'), 'w+b') as told:
        with subprocess.Popen(['rt', 'try', '--seconds', str(BUILD_SECONDS), '--', *words], cwd=os.path.join(TOP, 'crates/fws'),
                              stdin=subprocess.DEVNULL, stdout=told, stderr=told) as tried:
            command = None
            while command is None and tried.poll() is None:
                time.sleep(0.2)
                command = started_with(words)
            if command:
                copy = os.path.join(folder, 'program')
                shutil.copy2(command[-1], copy)
                command = [*command[:-1], copy]
                os.close(os.open(pipe, os.O_WRONLY))
            tried.wait()
        told.seek(0)
        return command, told.read().decode('utf-8', 'replace').splitlines()


def run_unproved(cases, files, tally):
    with tempfile.TemporaryDirectory(prefix='fws-cases-') as folder:
        command, told = build_unproved(folder)
        if command is None:
            print('the toolchain gives no program:')
            print('\n'.join('    ' + line for line in told[-20:]))
            tally.failed += len(cases)
            return
        run_cases(command, cases, files, tally)


def main(words):
    program = None
    if words[:1] == ['--program']:
        if len(words) < 2 or not os.access(words[1], os.X_OK):
            print('no program: %s' % ' '.join(words[1:2]), file=sys.stderr)
            return WRONG
        program, words = os.path.abspath(words[1]), words[2:]
    try:
        every = all_cases()
    except BadCase as fault:
        print(fault, file=sys.stderr)
        return WRONG
    cases = chosen(every, words)
    if not cases or any(word.startswith('-') for word in words):
        print('no case has the name: %s' % ' '.join(words), file=sys.stderr)
        return WRONG
    tally = Tally()
    if program:
        run_cases([program], cases, files_of(cases, every), tally)
    elif not shutil.which('rt'):
        print('no rt is found, with which the program could be built; `--program PATH` names one that is built', file=sys.stderr)
        return NO_TOOLCHAIN
    else:
        cases = [case for case in cases if not case.is_slow]
        print('%d command lines: the toolchain builds the program without proofs, in one to two minutes,' % len(cases), 'and they are run',
              file=sys.stderr)
        run_unproved(cases, files_of(cases, every), tally)
    print('cases: %d passed, %d failed' % (tally.passed, tally.failed))
    return DIFFERS if tally.failed else 0


if __name__ == '__main__':
    sys.exit(main(sys.argv[1:]))

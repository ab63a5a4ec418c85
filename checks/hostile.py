"""python3 checks/hostile.py [--program PATH] [--short] [--minutes N] [--seed N] [--jobs N] [--megabytes N] [--keep FOLDER] [PART ..]

Turns the outside against the built program, crates/fws/out/fws or the one at PATH. The parts, of which all are tried or those named:

  memory   Each allocation of some commands is refused in turn. Then nothing was written and the status is 6, or the answer is the
           one without it.
  devices  Each file that these commands open, each read and each write fails in turn. Then the status is 4 with the line that
           names the file whose turn it was, or 5 behind the first bytes of the answer. A call that was interrupted may be made again
           instead. Reads and writes of a byte at a time change nothing.
  cuts     Each example is cut behind each of its bytes, sites, connections, packets and events too: the cut text is answered or
           refused, with 0 or 3.
  texts    For N minutes, 10 where nothing is said, files of the command lines of checks/cases are broken and the command lines
           are run on them: bytes are changed, taken out and doubled, lines exchanged, words replaced by those of other languages.
           Each answer is whole, has a status that the command has, and is the same again. What is translated does the same as what
           it was made of.

Memory and devices want a C compiler, cc, gcc or clang, which makes checks/hostile/faults.c a library that is loaded ahead of the C library;
where there is none these parts are skipped.

--short tries each part in short, all in less than a minute. --seed gives the seed of what is drawn, which is printed; else it is that
of the clock. --jobs says how many tries are made at a time, 2 where nothing is said; --megabytes how much memory a command line may
hold, 6,000 where nothing is said, and 0 for any amount. --keep names a folder for the files of what went wrong.

Prints a line for each answer that isn't as it should be, with a command line that shows it, and last how many tries passed and failed. The
status is 1 where one failed, and 2 for bad words.
"""

import argparse
import collections
import errno
import os
import random
import re
import resource
import shlex
import shutil
import subprocess
import sys
import tempfile
import threading
import time
from multiprocessing.pool import ThreadPool

import quick

TOP = quick.TOP
SITE, ROUTER = 'examples/site.txt', 'examples/router.saved'
TRACKED = ['crates/fws_test_commands/data/connections', 'crates/fws_test_commands/data/packets']
OFFICE = ['examples/office.site', 'examples/office.ipfw']
BRANCH = ['examples/branch.site', 'examples/branch.ios']
GATEWAY = [SITE, 'examples/gateway.pf']

# Command lines for memory and devices. All files are read, in the order of the words.
COMMANDS = [
    ['synth', 'iptables', SITE, 'examples/open.rules', 'new'],
    ['synth', 'iptables', SITE, 'crates/fws_test_configs/data/port-forward.rules', 'new'],
    ['trace', 'iptables', SITE, ROUTER, *TRACKED],
    ['translate', 'iptables', 'pf', SITE, ROUTER],
    ['query', 'iptables', SITE, ROUTER, 'new', 'dst=10.0.0.5', 'dport=22'],
    ['load', '1'],
    ['why', 'iptables', SITE, ROUTER, *TRACKED],
    ['run', 'iptables', SITE, ROUTER, 'examples/router.events'],
    ['same', 'iptables', SITE, ROUTER, 'pf', 'examples/gateway.pf'],
    ['dead', 'ipfw', *OFFICE],
    ['synth', 'ios', *BRANCH, 'est'],
    ['translate', 'pf', 'ipfw', *GATEWAY],
    ['translate', 'ipfw', 'iptables', *OFFICE],
    ['translate', 'iptables', 'ios', SITE, 'examples/forward.rules'],
    ['site2', SITE],
    ['synth', 'pf', SITE, ROUTER, 'new'],
    ['--help'],
]

# Command lines whose files are cut.
CUT = [
    ['synth', 'iptables', SITE, ROUTER, 'new'],
    ['synth', 'ipfw', *OFFICE, 'new'],
    ['synth', 'pf', *GATEWAY, 'new'],
    ['synth', 'ios', *BRANCH, 'new'],
    ['trace', 'iptables', SITE, ROUTER, 'examples/router.connections', 'examples/router.packets'],
    ['run', 'iptables', SITE, ROUTER, 'examples/router.events'],
    ['synth', 'iptables', 'examples/routed.site', 'examples/outbound.rules', 'est'],
]

# For how many of the tries there is time in short.
SHORT_COMMANDS, SHORT_CALLS, SHORT_CUTS, SHORT_SECONDS = 6, 40, 24, 12
LONGEST = 120  # seconds that a command line may take
SLOW = 20  # seconds from which on it is told
STATUSES = {'translate': (0, 1, 3)}
WRITTEN = {'new', 'est', 'expired'}

Answer = collections.namedtuple('Answer', 'status text told')


class Tally:
    """How many tries passed, and what failed."""

    def __init__(self, keep):
        self.passed = self.failed = 0
        self.keep = keep
        self.lock = threading.Lock()

    def judge(self, why, words, files=None, extra=''):
        """Counts a try, and tells it with a command line that shows it where there is a reason why it isn't as it should be."""
        with self.lock:
            if why is None:
                self.passed += 1
                return
            self.failed += 1
            said = 'fws ' + ' '.join(shlex.quote(word) for word in words)
            if self.keep and files:
                folder = os.path.join(self.keep, str(self.failed))
                put_files(folder, files)
                said = 'in %s: %s' % (folder, said)
            print('%s%s: %s' % (said, extra, why), flush=True)


def put_files(folder, files):
    for name, text in files.items():
        path = os.path.join(folder, name)
        os.makedirs(os.path.dirname(path), exist_ok=True)
        with open(path, 'wb') as file:
            file.write(text)


def run(program, words, folder, more=None, inherited=()):
    """What a command line answers; a status of None is one that didn't end in time."""
    try:
        ended = subprocess.run([program, *words], cwd=folder, env=more or {}, stdin=subprocess.DEVNULL, stdout=subprocess.PIPE,
                               stderr=subprocess.PIPE, timeout=LONGEST, check=False, pass_fds=inherited)
    except subprocess.TimeoutExpired:
        return Answer(None, b'', b'')
    return Answer(ended.returncode, ended.stdout, ended.stderr)


def shown(answer):
    return 'status %s and %s' % (answer.status, quick.shortened(answer.text.decode('utf-8', 'backslashreplace')))


def spread(count, most):
    """The numbers below a count, or as many of them, from the first to the last, as there is time for."""
    if most is None or count <= most:
        return range(count)
    return sorted({number * (count - 1) // (most - 1) for number in range(most)})


# Memory and devices


class Faults:
    """Runs of the program in which one call is spoilt, by a library that is loaded ahead of the C library."""

    def __init__(self, program, folder):
        self.program = program
        self.library = os.path.join(folder, 'faults.so')
        self.compiler = next(filter(None, map(shutil.which, ('cc', 'gcc', 'clang'))), None)

    def compile(self):
        """Whether there is a library now."""
        if self.compiler is None:
            return False
        made = subprocess.run([self.compiler, '-shared', '-fPIC', '-O1', '-o', self.library, os.path.join(TOP, 'checks/hostile/faults.c')],
                              stdout=subprocess.PIPE, stderr=subprocess.STDOUT, check=False)
        if made.returncode:
            print(made.stdout.decode('utf-8', 'replace'), end='')
        return made.returncode == 0

    def run(self, words, call='', number=0, error=0, piece=0):
        """What the command line answers, and whether the call was made that is spoilt."""
        with tempfile.TemporaryFile() as mark:
            more = {'LD_PRELOAD': self.library, 'HOSTILE_CALL': call, 'HOSTILE_NUMBER': str(number), 'HOSTILE_ERROR': str(error),
                    'HOSTILE_PIECE': str(piece), 'HOSTILE_TOLD': str(mark.fileno())}
            answer = run(self.program, words, TOP, more, (mark.fileno(),))
            return answer, mark.seek(0, os.SEEK_END) > 0

    def count(self, words, call):
        """How many such calls a command line makes: one behind the last one isn't spoilt."""
        most = 1
        while self.run(words, call, most, errno.EINTR)[1]:
            most *= 2
        least = most // 2
        while most - least > 1:
            middle = (least + most) // 2
            least, most = (middle, most) if self.run(words, call, middle, errno.EINTR)[1] else (least, middle)
        return least


def unread(words):
    """The lines that name the files of a command line."""
    return [b'cannot read %s\n' % word.encode() for word in words if os.path.isfile(os.path.join(TOP, word))]


def is_same(answer, other):
    """Whether two answers are one, whatever stands beside them on standard error."""
    return answer[:2] == other[:2]


def wrong_beside(told):
    """What is wrong with what was told on standard error, or None: whole lines without control bytes."""
    if re.fullmatch(rb'([^\x00-\x1f\x7f]*\n)*', told):
        return None
    return 'standard error has %r' % told[:80]


def wrong_memory(answer, whole):
    if is_same(answer, whole) or answer[:2] == (6, b''):
        return wrong_beside(answer.told)
    return '%s, not its answer, and not 6 and nothing' % shown(answer)


def wrong_device(answer, whole, words, call, interrupted):
    if wrong_beside(answer.told):
        return wrong_beside(answer.told)
    if is_same(answer, whole) and (interrupted or call == 'tell'):
        return None
    if call == 'write' and answer.status == 5 and whole.text.startswith(answer.text) and answer.text != whole.text:
        return None
    if call in ('open', 'read') and answer.status == 4 and answer.text in unread(words):
        return None
    return '%s where a call failed' % shown(answer)


def try_memory(faults, tally, jobs, short):
    for words in COMMANDS[:SHORT_COMMANDS if short else None]:
        whole, _ = faults.run(words)

        def try_one(number, words=words, whole=whole):
            answer, is_made = faults.run(words, 'allocate', number + 1, errno.ENOMEM)
            why = wrong_memory(answer, whole) if is_made else 'allocation %d is not made again' % (number + 1)
            tally.judge(why, words, extra=' with allocation %d refused' % (number + 1))

        with ThreadPool(jobs) as pool:
            pool.map(try_one, spread(faults.count(words, 'allocate'), SHORT_CALLS if short else None))


def try_devices(faults, tally, short):
    full = errno.EIO, errno.ENOSPC, errno.EINTR
    errors = {'open': (errno.EACCES, errno.EMFILE), 'read': (errno.EIO, errno.EINTR), 'write': full, 'tell': full}
    for words in COMMANDS[:SHORT_COMMANDS if short else None]:
        whole, _ = faults.run(words)
        for call in errors:
            turns = []  # the lines of files that can't be read, call by call
            for number in spread(faults.count(words, call), SHORT_CALLS if short else None):
                for error in errors[call]:
                    answer, _ = faults.run(words, call, number + 1, error)
                    why = wrong_device(answer, whole, words, call, error == errno.EINTR)
                    tally.judge(why, words, extra=' with %s %d failing by %s' % (call, number + 1, errno.errorcode[error]))
                    if why is None and answer.status == 4:
                        turns.append(unread(words).index(answer.text))
            tally.judge(None if turns == sorted(turns) else 'files come in the order %s as %s fails' % (turns, call), words)
        answer, _ = faults.run(words, piece=1)
        tally.judge(None if is_same(answer, whole) else '%s, by a byte at a time' % shown(answer), words)


# What is a whole answer


def lines_of(text):
    """The lines of a text that ends in a line feed, or None."""
    if not text.endswith(b'\n'):
        return None
    return text.decode('utf-8', 'surrogateescape')[:-1].split('\n')


def is_refusal(text, words, files):
    """Whether it is one line that refuses a file of the command line, for a line that the file has or one more."""
    lines = lines_of(text)
    if lines is None:
        return False
    for name in [word for word in words if word in files or word.startswith('/dev/')]:
        said = '\n'.join(lines)
        if not said.startswith('refused %s ' % name):
            continue
        rest = said[len('refused %s ' % name):]
        told = re.fullmatch(r'line (\d+) (syntax|left-out|no-name|no-interface|backward|shape|expand|overlap|names|count)', rest)
        if told and name in files:
            return 1 <= int(told[1]) <= files[name].count(b'\n') + 2
        if re.fullmatch(r'(loop|deep|long) [^\n]+|over 4194304 bytes', rest):
            return True
    return False


def packet_lines(text):
    """How many packets or events a text lists that was read, or None where that can't be told by its bytes."""
    if b'"' in text or b'\\' in text:
        return None
    return sum(1 for line in text.split(b'\n') if line.split(b'#')[0].split())


def is_counted(lines, form, ending=None):
    """Whether the first line counts those behind it, which end in the form."""
    told = re.fullmatch(form + r' (\d+)', lines[0])
    return told is not None and int(told[1]) == len(lines) - 1 and (
        ending is None or all(re.search(ending, line) for line in lines[1:]))


ROW = r' : (drop|accept( (src|dst)=\S+){0,2})$'


def is_run(lines):
    """Whether it is the text of a run: answers, and the count of connections with as many lines behind it."""
    for number, line in enumerate(lines):
        told = re.fullmatch(r'conns (\d+)', line)
        if told:
            return int(told[1]) == len(lines) - number - 1
        if not re.match(r'(new|est) (drop|accept)|expired \d+$|no entry \d+$', line):
            return False
    return False


def is_answer(text, words, files):
    """Whether a text is a whole answer of the command, as far as its form tells."""
    command = words[0]
    if command in ('trace', 'why') and not text:
        return packet_lines(files.get(words[-1], b'')) in (0, None)
    lines = lines_of(text)
    if lines is None:
        return command == 'translate' and not text
    if command == 'synth':
        return is_counted(lines, 'table ' + words[4], ROW)
    if command == 'query':
        return is_counted(lines, 'query ' + words[4], ROW)
    if command == 'dead':
        return is_counted(lines, 'dead')
    if command == 'same':
        return lines == ['same'] or len(lines) == 1 and lines[0].startswith('differ ')
    if command == 'trace':
        count = packet_lines(files.get(words[-1], b''))
        return count in (len(lines), None) and all(re.match(r'(new|est) (drop$|accept )', line) for line in lines)
    if command == 'why':
        count = packet_lines(files.get(words[-1], b''))
        return count in (sum(1 for line in lines if not line.startswith('  ')), None)
    if command == 'run':
        return is_run(lines)
    return command != 'site2' or lines[0] == 'site 2'


def wrong_answer(answer, words, files):
    """Why an answer to files that are there isn't a whole one, or None."""
    if answer.status is None:
        return 'it had not ended after %d seconds' % LONGEST
    if wrong_beside(answer.told):
        return wrong_beside(answer.told)
    absent = [word for word in words if b'cannot read %s\n' % word.encode() == answer.text and word not in files]
    if answer.status == 4 and absent:
        return None
    if answer.status not in STATUSES.get(words[0], (0, 3)) + ((2,) if words[0] == 'query' else ()):
        return shown(answer)
    if answer.status == 0 and not is_answer(answer.text, words, files):
        return '%s, which is no whole answer' % shown(answer)
    if answer.status == 1 and not re.fullmatch(rb'not placeable on %s clause \d+: [^\n]+\n' % words[2].encode(), answer.text):
        return '%s, which names no packet' % shown(answer)
    if answer.status == 2 and not answer.text.startswith(b'usage: fws '):
        return '%s, which is no usage text' % shown(answer)
    if answer.status == 3 and not is_refusal(answer.text, words, files):
        return '%s, which refuses no line of a file' % shown(answer)
    return None


# Cuts


def try_cuts(program, tally, folder, short):
    for words in CUT:
        files = {word: quick.contents(word) for word in words if os.path.isfile(os.path.join(TOP, word))}
        for name, whole in files.items():
            for length in spread(len(whole) + 1, SHORT_CUTS if short else None):
                cut = dict(files, **{name: whole[:length]})
                put_files(folder, cut)
                answer = run(program, words, folder)
                tally.judge(wrong_answer(answer, words, cut), words, cut, ' with %s cut behind byte %d' % (name, length))


# Broken texts


class Case(collections.namedtuple('Case', 'words files')):
    """A command line that has an answer, and its files."""


def known_cases():
    """The command lines of checks/cases whose files are all there and which were answered or refused."""
    every = quick.all_cases()
    found = []
    for case in every:
        files = quick.files_of([case], every)
        if case.words and case.status in (0, 1, 3) and files and not case.is_slow and not any(
                other.keeps in case.words for other in every if other.keeps):
            found.append(Case(case.words, files))
    return found


WORDS = re.compile(rb'[^\s"{},()<>]+')
BYTES = b'\0\t\n\r !"#$%(),-./0123456789:;<=>@A[\\]_a{|}~\x7f\x80\xc3\xff'
NUMBERS = [b'', b'0', b'00', b'0x0', b'-1', b'1', b'2', b'8', b'10', b'22', b'24', b'32', b'53', b'64', b'65', b'80', b'255', b'256', b'443',
           b'65534', b'65535', b'65536', b'1000000', b'4294967295', b'4294967296', b'18446744073709551615', b'18446744073709551616',
           b'99999999999999999999999', b'0.0.0.0', b'0.0.0.0/0', b'10.0.0.0', b'10.0.0.1/33', b'10.0.0.5', b'10.0.0.9', b'127.0.0.1',
           b'198.51.100.9', b'203.0.113.2', b'255.255.255.255']


class Breaker:
    """Breaks texts. Words and lines come from the files of all cases."""

    def __init__(self, rng, cases):
        self.rng = rng
        texts = sorted({text for case in cases for text in case.files.values()})
        self.words = sorted({word for text in texts for word in WORDS.findall(text)[:2000]})
        self.lines = collections.defaultdict(set)  # by the language of the command line
        for case in cases:
            for text in case.files.values():
                self.lines[case.words[1]].update(text.split(b'\n')[:400])
        self.lines = {language: sorted(lines) for language, lines in self.lines.items()}
        self.language = None
        # ways that leave many a text one that is read, and ways that leave few
        self.gentle = [self.swap_lines, self.double_line, self.drop_line, self.put_line, self.change_number, self.many_lines]
        self.rough = [self.change_byte, self.cut, self.double, self.drop, self.change_word, self.insert_bytes]

    def span(self, text):
        begin = self.rng.randrange(len(text) + 1)
        return begin, min(len(text), begin + self.rng.choice((1, 1, 2, 4, 8, 30, 200)))

    def change_byte(self, text):
        place = self.rng.randrange(len(text) + 1)
        byte = bytes([self.rng.choice(BYTES) if self.rng.random() < .8 else self.rng.randrange(256)])
        return text[:place] + byte + text[place + self.rng.randrange(2):]

    def cut(self, text):
        return text[:self.rng.randrange(len(text) + 1)]

    def double(self, text):
        begin, end = self.span(text)
        return text[:end] + text[begin:]

    def drop(self, text):
        begin, end = self.span(text)
        return text[:begin] + text[end:]

    def insert_bytes(self, text):
        place = self.rng.randrange(len(text) + 1)
        return text[:place] + bytes(self.rng.choice(BYTES) for _ in range(self.rng.choice((1, 3, 100)))) + text[place:]

    def swap_lines(self, text):
        lines = text.split(b'\n')
        first, second = self.rng.randrange(len(lines)), self.rng.randrange(len(lines))
        lines[first], lines[second] = lines[second], lines[first]
        return b'\n'.join(lines)

    def double_line(self, text):
        lines = text.split(b'\n')
        lines.insert(self.rng.randrange(len(lines) + 1), self.rng.choice(lines))
        return b'\n'.join(lines)

    def drop_line(self, text):
        lines = text.split(b'\n')
        del lines[self.rng.randrange(len(lines))]
        return b'\n'.join(lines)

    def put_line(self, text):
        lines = text.split(b'\n')
        language = self.language if self.rng.random() < .8 else self.rng.choice(sorted(self.lines))
        lines.insert(self.rng.randrange(len(lines) + 1), self.rng.choice(self.lines[language]))
        return b'\n'.join(lines)

    def many_lines(self, text):
        """A few lines over and over, with other numbers."""
        lines = text.split(b'\n')
        begin = self.rng.randrange(len(lines))
        block = lines[begin:begin + self.rng.choice((1, 1, 2, 3))]
        copies = [re.sub(rb'\d+', lambda told, step=step: b'%d' % (int(told[0]) + step) if len(told[0]) < 6 else told[0], line)
                  for step in range(self.rng.choice((2, 5, 20, 60))) for line in block]
        return b'\n'.join(lines[:begin] + copies + lines[begin:])

    def with_word(self, text, form, choices):
        places = [found.span() for found in form.finditer(text)]
        if not places:
            return self.change_byte(text)
        begin, end = self.rng.choice(places)
        return text[:begin] + self.rng.choice(choices) + text[end:]

    def change_word(self, text):
        return self.with_word(text, WORDS, self.words)

    def change_number(self, text):
        return self.with_word(text, re.compile(rb'\d[\d.]*'), NUMBERS)

    def broken(self, case):
        """The files of a case with one of them broken, seldom more, once or some times over."""
        files, self.language = dict(case.files), case.words[1]
        ways = self.rng.choice((self.gentle, self.gentle, self.rough))
        for _ in range(self.rng.choice((1, 1, 1, 2, 3, 6))):
            name = self.rng.choice(sorted(files))
            files[name] = self.rng.choice(ways)(files[name])
        return files


def wrong_translation(program, words, files, folder, text):
    """Why a text isn't a translation of a file, or None: it is read, and does the same."""
    with open(os.path.join(folder, 'translated'), 'wb') as file:
        file.write(text)
    answer = run(program, ['same', words[1], words[3], words[4], words[2], 'translated'], folder)
    return None if answer[:2] == (0, b'same\n') else '%s, as the translation is compared with the file' % shown(answer)


def try_text(program, tally, folder, case, files):
    put_files(folder, files)
    begin = time.monotonic()
    answer = run(program, case.words, folder)
    seconds = time.monotonic() - begin
    why = wrong_answer(answer, case.words, files)
    if why is None and seconds > SLOW:
        why = 'it took %.0f seconds' % seconds
    if why is None:
        again = run(program, case.words, folder)
        why = None if again == answer else '%s, and again %s' % (shown(answer), shown(again))
    if why is None and answer.status == 0 and case.words[0] == 'translate':
        why = wrong_translation(program, case.words, files, folder, answer.text)
    tally.judge(why, case.words, files)
    return answer.status


def try_texts(program, tally, folder, seconds, seed, jobs):
    cases = known_cases()
    end = time.monotonic() + seconds
    statuses = collections.Counter()

    def work(number):
        room = os.path.join(folder, str(number))
        breaker = Breaker(random.Random('%d %d' % (seed, number)), cases)
        while time.monotonic() < end:
            case = breaker.rng.choice(cases)
            status = try_text(program, tally, room, case, breaker.broken(case))
            with tally.lock:
                statuses[status] += 1

    threads = [threading.Thread(target=work, args=(number,)) for number in range(jobs)]
    for thread in threads:
        thread.start()
    for thread in threads:
        thread.join()
    said = ', '.join('%d with status %s' % (count, status) for status, count in sorted(statuses.items(), key=str))
    print('texts: seed %d, %d broken texts of %d command lines in %d seconds, %s' % (seed, sum(statuses.values()), len(cases), seconds, said))


# The tool


def read_words():
    parser = argparse.ArgumentParser(prog='checks/hostile.sh', description=__doc__, formatter_class=argparse.RawDescriptionHelpFormatter)
    parser.add_argument('--program', default=os.path.join(TOP, 'crates/fws/out/fws'))
    parser.add_argument('--short', action='store_true')
    parser.add_argument('--minutes', type=float, default=10)
    parser.add_argument('--seed', type=int)
    parser.add_argument('--jobs', type=int, default=2)
    parser.add_argument('--megabytes', type=int, default=6000)
    parser.add_argument('--keep', metavar='FOLDER')
    parser.add_argument('parts', nargs='*', metavar='PART')
    words = parser.parse_args()
    unknown = set(words.parts) - {'memory', 'devices', 'cuts', 'texts'}
    if unknown:
        parser.error('no part %s' % ' '.join(sorted(unknown)))
    words.program = os.path.abspath(words.program)
    if not os.access(words.program, os.X_OK):
        parser.error('no program at %s; build first: ./fws --build' % words.program)
    return words


def main():
    words = read_words()
    parts = words.parts or ['memory', 'devices', 'cuts', 'texts']
    seed = int(time.time()) if words.seed is None else words.seed
    tally = Tally(words.keep)
    if words.megabytes:
        resource.setrlimit(resource.RLIMIT_AS, (words.megabytes << 20, words.megabytes << 20))
    with tempfile.TemporaryDirectory(prefix='fws-hostile-') as folder:
        if 'memory' in parts or 'devices' in parts:
            faults = Faults(words.program, folder)
            if not faults.compile():
                print('skipped: memory and devices, which want a C compiler')
            else:
                if 'memory' in parts:
                    try_memory(faults, tally, words.jobs, words.short)
                if 'devices' in parts:
                    try_devices(faults, tally, words.short)
        if 'cuts' in parts:
            try_cuts(words.program, tally, os.path.join(folder, 'cuts'), words.short)
        if 'texts' in parts:
            try_texts(words.program, tally, os.path.join(folder, 'texts'), SHORT_SECONDS if words.short else 60 * words.minutes, seed, words.jobs)
    print('hostile: %d passed, %d failed' % (tally.passed, tally.failed))
    return 1 if tally.failed or not tally.passed else 0


if __name__ == '__main__':
    sys.exit(main())

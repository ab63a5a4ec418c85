"""What the programs of this folder share: files of make.py, commands that are timed, and bounds."""

import collections
import os
import resource
import subprocess
import sys
import time

MAKE = os.path.join(os.path.dirname(os.path.abspath(__file__)), 'make.py')
BOTH = ('new', 'est')

Run = collections.namedtuple('Run', 'status text seconds')


def written(work, name, text):
    """The path of a file with this text."""
    path = os.path.join(work, name)
    with open(path, 'w', encoding='utf-8') as file:
        file.write(text)
    return path


def made(work, count, family, lang='iptables', name='rules'):
    """The path of the file of so many rules of a family of make.py."""
    path = os.path.join(work, name)
    with open(path, 'wb') as file:
        subprocess.run([sys.executable, MAKE, str(count), family, lang], stdout=file, check=True)
    return path


def run(*command, timeout=300):
    """The command's status, what it writes, and the seconds that it takes; None where it takes longer than the timeout."""
    begun = time.monotonic()
    try:
        ended = subprocess.run(command, stdout=subprocess.PIPE, stderr=subprocess.DEVNULL, timeout=timeout)
    except subprocess.TimeoutExpired:
        return None
    return Run(ended.returncode, ended.stdout.decode(), time.monotonic() - begun)


def right(*command, timeout=300):
    """The same, of a command that is to end with status 0 in time."""
    ended = run(*command, timeout=timeout)
    if ended is None or ended.status != 0:
        said = 'no end' if ended is None else 'status %d: %s' % (ended.status, ended.text[:200])
        sys.exit('%s: %s' % (' '.join(command), said))
    return ended


def table(program, lang, site, name, state='new'):
    """The command that makes a table."""
    return program, 'synth', lang, site, name, state


def tables(program, lang, site, name):
    """Both tables of a text, and the seconds that they take."""
    ended = [right(*table(program, lang, site, name, state)) for state in BOTH]
    return [one.text for one in ended], sum(one.seconds for one in ended)


class Best(dict):
    """The fewest seconds of each of some runs."""

    def take(self, name, seconds):
        self[name] = min(seconds, self.get(name, seconds))

    def turns(self, times, commands, timeout=120):
        """Runs each of the commands so many times, in turn; gives the texts that each wrote."""
        texts = {name: set() for name in commands}
        for _ in range(times):
            for name, command in commands.items():
                ended = right(*command, timeout=timeout)
                texts[name].add(ended.text)
                self.take(name, ended.seconds)
        return texts


def megabytes():
    """The most memory that a command took so far."""
    return resource.getrusage(resource.RUSAGE_CHILDREN).ru_maxrss / 1024


def processor():
    """The processor seconds that commands took so far."""
    used = resource.getrusage(resource.RUSAGE_CHILDREN)
    return used.ru_utime + used.ru_stime


def judged(head, seconds, most_seconds, most_megabytes, *counts):
    """Prints what was measured of a command, and gives the status: 1 past the bounds."""
    used = megabytes()
    print(*head, '%.2f' % seconds, '%.0f' % used, *counts)
    if seconds <= most_seconds and used <= most_megabytes:
        return 0
    print(*head, 'is past %g seconds or %g megabytes' % (most_seconds, most_megabytes))
    return 1


def wrong(head, ended, timeout=None):
    """Says that a command ended otherwise than it is to."""
    if ended is None:
        print(*head, 'more than %g seconds' % timeout)
    else:
        print(*head, 'ended with status', ended.status, ended.text[:200].split('\n')[0])
    return 1

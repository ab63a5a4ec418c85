"""Tries tools/view: what it writes for a terminal and elsewhere, which texts it passes on, and its page in a browser.

FWS_PICTURE, where it is set, names a file to which a picture of the page of the router's table is written.
"""

import html.parser
import importlib
import json
import os
import pty
import re
import subprocess
import sys
import tempfile

from browser import Browser, browser_name
from common import EXAMPLES, PROGRAM, TOP, VIEW, run, write

sys.path.insert(0, os.path.join(TOP, 'tools'))

TABLE = '''table new 5
host * * * * * * * : accept
lan 0-5,7-255 * * * * * * : drop
lan 6 0.0.0.0-10.0.0.4,10.0.0.6-203.0.113.1,203.0.113.3-255.255.255.255 * * * * * : drop
lan 6 10.0.0.5 0-79,81-65535 * * * * : accept src=203.0.113.2
lan 6 10.0.0.5,203.0.113.2 80 * * * * : accept src=203.0.113.2 dst=10.0.0.9:8080
'''

# The same in words: src, sport, flags and icmp are alike in each row, and so aren't shown as columns.
WIDE = '''5 rows of a table: new packets
In each row: anything as src, sport, flags, icmp.
entry  proto  dst                      dport  verdict  written
host   *      *                        *      accept
lan    !tcp   *                        *      drop
lan    tcp    !{10.0.0.5,203.0.113.2}  *      drop
lan    tcp    10.0.0.5                 !http  accept   src=203.0.113.2
lan    tcp    10.0.0.5,203.0.113.2     http   accept   src=203.0.113.2 dst=10.0.0.9:8080
'''
NUMERIC = '''5 rows of a table: new packets
In each row: anything as src, sport, flags, icmp.
entry  proto      dst                                                                      dport         verdict  written
host   *          *                                                                        *             accept
lan    0-5,7-255  *                                                                        *             drop
lan    6          0.0.0.0-10.0.0.4,10.0.0.6-203.0.113.1,203.0.113.3-255.255.255.255        *             drop
lan    6          10.0.0.5                                                                 0-79,81-65535 accept   src=203.0.113.2
lan    6          10.0.0.5,203.0.113.2                                                     80            accept   src=203.0.113.2 dst=10.0.0.9:8080
'''

EST = '''query est 2
wan 6 10.0.0.5 8080 * * * * 203.0.113.2 80 * * : accept
wan 6 10.0.0.5 8080 * * * * 203.0.113.2 81 * * : accept
'''

# Texts that are passed on, with the status that goes with them.
OTHERS = (
    ('refused rules line 3 syntax\n', 3), ('refused rules loop A\n', 3), ('cannot read rules\n', 4),
    ('not placeable on ipfw clause 2: host 6 0.0.0.0 0 10.0.0.5 8080 0 0\n', 1),
    ('usage: fws synth|query|translate|trace|load|site2|run|same|dead\n', 2),
    ('new drop\nest drop\n', 0), ('site 2\n', 0), ('', 6), ('refused \xff\x00 line 1 syntax\n', 3), ('table old 1\n', 0),
    ('*filter\nCOMMIT\n', 0),
    ('refused <img src=x onerror="a()">&amp; line 1 syntax\n', 3), ('cannot read <script>\x1b[2J\n', 4),
)

# Tables that are cut off, what is said of them, and how many rows are shown.
CUTS = (
    ('table new 2\n* * * * * * * * : drop\n', 'the text ends after 1 of 2 rows', 1),
    ('table new 2\n* * * * * * * * : drop\nlan * * * ', 'line 3 is no row of this table', 1),
    ('query new 1\n* * * * * * * * * : drop\n', 'line 2 is no row of this query', 0),
    ('table new 1\n* * * * * * * * : accept dst=1.2.3.4 src=1.2.3.4\n', 'line 2 is no row of this table', 0),
    ('table new 1\n* * * * * * * * : drop\n* * * * * * * * : drop\n', 'line 3 is no row of this table', 1),
)


def blanks(text):
    """The text with each run of blanks as one, so that what is expected needn't have the widths of columns."""
    return [re.sub(' +', ' ', line) for line in text.splitlines()]


def check_columns(tally):
    plain = dict(os.environ, COLUMNS='150')
    status, text, said = run(VIEW, told=TABLE, env=plain)
    tally.check('a table: status and errors', (0, ''), (status, said))
    tally.check('a table', blanks(WIDE), blanks(text))
    lines = text.splitlines()[2:]
    for name in ('proto', 'dst', 'dport', 'verdict', 'written'):
        place = lines[0].index(name)
        tally.holds('a table: the column %s' % name, all(
            line[place - 1:place] in ('', ' ') and line[place:place + 1] != ' '
            for line in lines if len(line) > place and name != 'written'), lines)
    tally.check('--numeric', blanks(NUMERIC), blanks(run(VIEW, '--numeric', told=TABLE, env=plain)[1]))
    narrow = run(VIEW, '--numeric', told=TABLE, env=dict(os.environ, COLUMNS='80'))[1].splitlines()
    tally.holds('80 columns', max(map(len, narrow)) <= 80, narrow)
    tally.holds('80 columns: a set is shortened behind a whole item or within its first', any(
        re.search(r' (0\.0\.0\.0-10\.0\.0\.4,|0[.0-9-]*)\.\. ', line) for line in narrow), narrow)
    tally.holds('80 columns: what is written is whole', narrow[-1].endswith('accept   src=203.0.113.2 dst=10.0.0.9:8080'), narrow[-1])
    wide = run(VIEW, '--wide', '--numeric', told=TABLE, env=dict(os.environ, COLUMNS='80'))[1]
    tally.check('--wide', blanks(NUMERIC), blanks(wide))
    narrow = run(VIEW, told=TABLE, env=dict(os.environ, COLUMNS='60'))[1].splitlines()
    tally.check('60 columns: words are shortened behind an item', 'lan tcp !{10.0.0.5,.. * drop', blanks(narrow[5])[0])
    tally.check('rows of a query', ['2 rows of a query: packets of established connections',
                                    'In each row: entry wan; proto tcp; dst 10.0.0.5; dport 8080; rdst 203.0.113.2; verdict accept; '
                                    'anything as src, sport, flags, icmp, rsrc, rsport.',
                                    'rdport', 'http', '81'], run(VIEW, told=EST, env=plain)[1].splitlines())
    tally.check('one row', ['1 row of a table: new packets', 'In each row: anything as entry, proto, dst, dport, src, sport, flags, icmp.',
                            'verdict', 'drop'], run(VIEW, told='table new 1\n* * * * * * * * : drop\n', env=plain)[1].splitlines())
    tally.check('no row', (0, '0 rows of a query: new packets\n', ''), run(VIEW, told='query new 0\n', env=plain))


# Sets as fws writes them, and in words: a field, the set, and the words.
WORDS = (
    ('dst', '*', '*'), ('dst', '10.0.0.0-10.0.0.255', '10.0.0.0/24'), ('dst', '0.0.0.0-9.255.255.255,10.0.1.0-255.255.255.255', '!10.0.0.0/24'),
    ('dst', '10.0.0.1', '10.0.0.1'), ('dst', '10.0.0.0-10.0.1.127', '10.0.0.0-10.0.1.127'), ('dst', '10.0.0.0-10.0.0.1', '10.0.0.0/31'),
    ('src', '0.0.0.0-10.0.0.4,10.0.0.6-203.0.113.1,203.0.113.3-255.255.255.255', '!{10.0.0.5,203.0.113.2}'),
    ('src', '10.0.0.0-10.0.0.0,10.0.0.2-10.0.0.255', '10.0.0.0,10.0.0.2-10.0.0.255'), ('src', '128.0.0.0-255.255.255.255', '128.0.0.0/1'),
    ('src', '1.0.0.0-255.255.255.255', '!0.0.0.0/8'), ('rdst', '127.0.0.0-127.255.255.255', '127.0.0.0/8'),
    ('proto', '6', 'tcp'), ('proto', '0-5,7-255', '!tcp'), ('proto', '0,2-5,7-255', '!{icmp,tcp}'), ('proto', '6,17', 'tcp,udp'),
    ('proto', '99', '99'), ('dport', '80', 'http'), ('dport', '8080', '8080'), ('dport', '22,443', 'ssh,https'),
    ('dport', '0-21,23-65535', '!ssh'), ('dport', '1024-65535', '1024-65535'), ('dport', '0-1023', '0-1023'), ('rsport', '53', 'domain'),
    ('icmp', '8', 'echo-request'), ('icmp', '0-7,9-255', '!echo-request'), ('icmp', '0,8', 'echo-reply,echo-request'),
    ('flags', '2', 'SYN alone'), ('flags', '18', 'SYN and ACK alone'), ('flags', '0', 'none'),
    ('flags', '2-3,6-7,10-11,14-15,34-35,38-39,42-43,46-47', 'SYN, not ACK'), ('flags', '16-31,48-63', 'ACK'),
    ('flags', '0-1,4-5,8-9,12-13,16-33,36-37,40-41,44-45,48-63', '!(SYN, not ACK)'), ('flags', '1-62', '1-62'),
)


def check_words(tally):
    fields = importlib.import_module('fields')
    for field, text, wanted in WORDS:
        tally.check('in words: %s %s' % (field, text), wanted, fields.text_in_words(field, text))
        if field != 'flags':  # of which there are forms that say more than a list
            ranges = fields.read_set(field, text)
            tally.check('in words and back: %s %s' % (field, text), ranges, fields.set_of_words(field, wanted))
    for field, text, wanted in (('flags', 'syn,!ack', '2-3,6-7,10-11,14-15,34-35,38-39,42-43,46-47'), ('flags', '18', '18'), ('dst', 'any', '*'),
                                ('dst', '10.0.0.7/24', '10.0.0.0-10.0.0.255'), ('dport', 'WWW', '80'), ('dport', '8000:8010', '8000-8010'),
                                ('proto', 'tcp,17', '6,17'), ('dport', '!{ssh,http}', '0-21,23-79,81-65535'), ('dst', '0.0.0.0/0', '*')):
        tally.check('of words: %s %s' % (field, text), wanted, fields.write_set(field, fields.set_of_words(field, text)))
    for field, text in (('dst', '10.0.0.300'), ('dst', '10.0.0.0/33'), ('dport', '70000'), ('dport', '90-80'), ('proto', 'tcpp'), ('icmp', ''),
                        ('flags', 'syn,!syn'), ('flags', 'sun'), ('dst', '10.0.0.1,,10.0.0.2')):
        try:
            tally.check('no words: %s %s' % (field, text), None, fields.set_of_words(field, text))
        except fields.NoValue:
            tally.holds('no words: %s %s' % (field, text), True)


JSON = {
    'form': 'table', 'state': 'new', 'count': 2, 'rows': [
        {'entry': ['*'], 'proto': [[0, 5], [7, 255]], 'dst': [['0.0.0.0', '255.255.255.255']], 'dport': [[0, 65535]],
         'src': [['0.0.0.0', '255.255.255.255']], 'sport': [[0, 65535]], 'flags': [[0, 63]], 'icmp': [[0, 255]], 'verdict': 'drop', 'written': {}},
        {'entry': ['lan', 'wan'], 'proto': [[6, 6]], 'dst': [['10.0.0.5', '10.0.0.5'], ['203.0.113.0', '203.0.113.3']], 'dport': [[80, 80]],
         'src': [['0.0.0.0', '255.255.255.255']], 'sport': [[0, 65535]], 'flags': [[2, 3]], 'icmp': [[0, 255]], 'verdict': 'accept',
         'written': {'src': '203.0.113.2', 'dst': '10.0.0.9:8080'}}]}
JSON_TABLE = '''table new 2
* 0-5,7-255 * * * * * * : drop
lan,wan 6 10.0.0.5,203.0.113.0-203.0.113.3 80 * * 2-3 * : accept src=203.0.113.2 dst=10.0.0.9:8080
'''


def check_json(tally):
    status, text, said = run(VIEW, '--json', told=JSON_TABLE)
    tally.check('--json', (0, JSON, ''), (status, json.loads(text), said))
    tally.check('--json of no row', {'form': 'query', 'state': 'est', 'count': 0, 'rows': []},
                json.loads(run(VIEW, '--json', told='query est 0\n')[1]))
    status, text, _ = run(VIEW, '--json', told='table new 2\n* * * * * * * * : drop\n')
    told = json.loads(text)
    tally.check('--json of a table that is cut off', (5, 'the text ends after 1 of 2 rows', 1), (status, told['fault'], len(told['rows'])))
    for text, status in OTHERS:
        tally.check('--json of %r' % text, (status, {'text': text, 'status': status}, ''), (lambda got: (got[0], json.loads(got[1]), got[2]))(
            run(VIEW, '--json', told=text)))


def in_terminal(words, told, **settings):
    """What a command writes to a terminal."""
    with tempfile.TemporaryDirectory() as folder:
        name = os.path.join(folder, 'a table')
        write(name, told)
        child, terminal = pty.fork()
        if child == 0:
            os.environ.update(settings)
            os.execv(words[0], [*words, name])
        said = b''
        while True:
            try:
                part = os.read(terminal, 65536)
            except OSError:
                break
            if not part:
                break
            said += part
        os.close(terminal)
        return os.waitstatus_to_exitcode(os.waitpid(child, 0)[1]), said.decode().replace('\r\n', '\n')


def check_terminal(tally):
    os.environ.pop('NO_COLOR', None)
    status, text = in_terminal([VIEW], TABLE, TERM='xterm', COLUMNS='150')
    tally.check('a terminal: status', 0, status)
    tally.check('a terminal: the same text', blanks(WIDE), [line.rstrip() for line in blanks(re.sub('\x1b\\[[0-9]*m', '', text))])
    accepted = [line for line in text.splitlines() if '\x1b[32maccept' in line]
    dropped = [line for line in text.splitlines() if '\x1b[31mdrop' in line]
    tally.check('a terminal: colours', (3, 2), (len(accepted), len(dropped)))
    tally.holds('a terminal: NO_COLOR', '\x1b' not in in_terminal([VIEW], TABLE, TERM='xterm', NO_COLOR='1')[1])
    tally.holds('a dumb terminal', '\x1b' not in in_terminal([VIEW], TABLE, TERM='dumb')[1])
    odd = in_terminal([VIEW], 'table new 2\na\x1b[2J * * * * * * * : drop\nb * * * * * * * : drop\n', TERM='dumb')[1]
    tally.holds('no escapes out of the text', '\x1b' not in odd, odd)


def check_others(tally):
    for text, status in OTHERS:
        for words in ((), ('--html',), ('--wide',)):
            wanted = html.escape(text) if words == ('--html',) else text
            tally.check('view %s of %r' % (' '.join(words), text), (status, wanted, ''), run(VIEW, *words, told=text))
    for text, why, count in CUTS:
        status, said, errors = run(VIEW, told=text)
        tally.check('a table that is cut off', (5, 'view: %s\n' % why), (status, errors))
        tally.holds('a table that is cut off: the rows', said.startswith('%s row' % text.split()[2]), said)
        status, said, errors = run(VIEW, '--html', told=text)
        tally.check('a page of a table that is cut off', (5, 'view: %s\n' % why, True, count),
                    (status, errors, 'Not all rows are here: %s' % why in said, said.count('<tr class=')))
    tally.check('an absent file', (4, 'cannot read /nowhere\n', ''), run(VIEW, '/nowhere'))
    tally.check('a folder', (4, 'cannot read /\n', ''), run(VIEW, '/'))
    with open('/dev/full', 'wb') as full:
        ended = subprocess.run([VIEW], input=TABLE.encode(), stdout=full, stderr=subprocess.PIPE, check=False)
        tally.check('a full device', (5, b'view: cannot write: No space left on device\n'), (ended.returncode, ended.stderr))
    status, text, said = run('bash', '-c', '"$0" | head -n 1', VIEW, told=TABLE)
    tally.check('a closed pipe', (0, '5 rows of a table: new packets\n', ''), (status, text, said))
    for words in (('--narrow',), ('a', 'b'), ('--title',), ('--html', '--json')):
        status, text, said = run(VIEW, *words)
        tally.holds('words %r' % (words,), (status, text) == (2, '') and said.startswith('usage: view') and 'Traceback' not in said, said)


class Links(html.parser.HTMLParser):
    """What a page takes from elsewhere."""

    def __init__(self):
        super().__init__()
        self.found = []

    def handle_starttag(self, tag, attrs):
        self.found += [(tag, name, value) for name, value in attrs if name in ('src', 'href', 'action', 'data', 'srcset')]


def check_page(tally):
    status, page, said = run(VIEW, '--html', '--title', 'Rules of <b> & "c"', told=TABLE)
    tally.check('a page: status and errors', (0, ''), (status, said))
    links = Links()
    links.feed(page)
    tally.check('a page: nothing from elsewhere', ([], []), (links.found, re.findall(r'@import|url\(|fetch\(|XMLHttp', page)))
    tally.holds('a page: its heading', '<h1>Rules of &lt;b&gt; &amp; &quot;c&quot;</h1>' in page)
    tally.check('a page: rows', 5, page.count('<tr class='))
    for word in ('proto', 'dst', 'dport', 'written', 'entry', 'sport', 'flags', 'icmp'):
        tally.holds('a page: %s is explained' % word, '<dt><code>%s</code><dd>' % word in page)
    odd = run(VIEW, '--html', told='table new 1\n<script>alert(1)</script> * * * * * * </script>" : drop\n')[1]
    tally.check('a page of odd words', 2, odd.count('<script'))


# In a browser: what is typed into the box, and the rows that are shown then, by their places in TABLE.
SEARCHES = (
    ('', [1, 2, 3, 4, 5]), ('10.0.0.5', [4, 5]), ('10.0.0.9', [3, 5]), ('80', [5]), ('22', [4]), ('8080', [4, 5]), ('lan', [2, 3, 4, 5]),
    ('accept', [1, 4, 5]), ('drop lan', [2, 3]), ('dst=10.0.0.5', [1, 2, 4, 5]), ('dst=10.0.0.5 proto=6', [1, 4, 5]), ('tcp', [1, 3, 4, 5]),
    ('proto=tcp dport=80', [1, 3, 5]), ('udp', [1, 2]), ('verdict=drop', [2, 3]), ('entry=host', [1]), ('nothing', []),
    ('dst=10.0.0.300', []), ('src=203.0.113.2', [1, 2, 3, 4, 5]), ('203.0.113.2', [4, 5]), ('dst=', [1, 2, 3, 4, 5]), ('LAN', [2, 3, 4, 5]),
    ('ssh', [4]), ('http', [5]), ('dport=ssh', [1, 2, 3, 4]), ('dport=80-90', [1, 2, 3, 4, 5]), ('dport=80', [1, 2, 3, 5]),
    ('dport=!http', [1, 2, 3, 4]), ('dport=ssh,http', [1, 2, 3, 4, 5]), ('dst=10.0.0.0/24', [1, 2, 3, 4, 5]), ('dst=10.0.0.5/32', [1, 2, 4, 5]),
    ('dst=203.0.113.2/31 dport=http', [1, 2, 3, 5]), ('dst=203.0.113.2/32', [1, 2, 5]), ('203.0.113.0/24', [3, 4, 5]), ('10.0.0.8/30', [3, 5]),
    ('dst=!10.0.0.5', [1, 2, 3, 5]), ('dst=!{10.0.0.5,203.0.113.2}', [1, 2, 3]), ('proto=!tcp', [1, 2]), ('proto=!{tcp,udp}', [1, 2]),
    ('flags=syn,!ack', [1, 2, 3, 4, 5]), ('icmp=echo-request', [1, 2, 3, 4, 5]), ('verdict=a', [1, 4, 5]), ('!http', [4]),
)
# What is typed, and what is said of a word that no row can have.
SAID = (
    ('10.0.0.5', ''), ('dst=10.0.0.300', 'dst=10.0.0.300 matches nothing: 10.0.0.300 is no address or network.'),
    ('dport=shh', 'dport=shh matches nothing: shh is no port or service.'),
    ('dport=70000', 'dport=70000 matches nothing: 70000 is no port or service.'),
    ('dst=10.0.0.0/33', 'dst=10.0.0.0/33 matches nothing: 10.0.0.0/33 is no address or network.'),
    ('proto=tcpp', 'proto=tcpp matches nothing: tcpp is no protocol.'), ('flags=sun', 'flags=sun matches nothing: sun is no list of flags.'),
    ('entry=dmz', 'entry=dmz matches nothing: rows have the entries host, lan.'),
    ('verdict=maybe', 'verdict=maybe matches nothing: a verdict is accept or drop.'),
    ('port=22', 'port=22 matches nothing: there is no field port, but entry, proto, dst, dport, src, sport, flags, icmp and verdict.'),
    ('rdst=10.0.0.5', 'rdst=10.0.0.5 matches nothing: there is no field rdst, but entry, proto, dst, dport, src, sport, flags, icmp and verdict.'),
    ('dmz lan', 'dmz matches nothing: no row has it.'), ('lan udp', ''),
    ('accept entry=host dst=x', 'dst=x matches nothing: x is no address or network.'),
)
SHOWN = ('JSON.stringify([...document.querySelectorAll("section tr")].map((row, k) => '
         'row.offsetHeight > 0 ? k + 1 : 0).filter(k => k))')


def check_searches(tally, browser, folder):
    name = os.path.join(folder, 'a page.html')
    write(name, run(VIEW, '--html', told=TABLE)[1])
    browser.open(name)
    for typed, wanted in SEARCHES:
        browser.value('box.value = ""; box.focus(); box.dispatchEvent(new Event("input"))')
        browser.type(typed)
        tally.check('the box with %r' % typed, str(wanted).replace(' ', ''), browser.value(SHOWN))
        if typed:
            tally.check('the box with %r: what is said' % typed, '%d of 5 rows' % len(wanted), browser.value('shown.textContent'))
    for typed, wanted in SAID:
        browser.value('box.value = ""; box.focus(); box.dispatchEvent(new Event("input"))')
        browser.type(typed)
        tally.check('the box with %r: why' % typed, wanted, browser.value('why.textContent.trim()'))
    tally.check('rows by their entries', '["From host","From lan"]', browser.value(
        'JSON.stringify([...document.querySelectorAll("h2")].map(head => head.firstChild.data.trim()))'))
    tally.check('verdicts by more than colour', '["✓ accept","✗ drop"]', browser.value(
        'JSON.stringify([...new Set([...document.querySelectorAll("td.v")].map(cell => cell.textContent))])'))
    tally.check('borders by more than colour', '["solid","dotted"]', browser.value(
        'JSON.stringify([...new Set([...document.querySelectorAll("td:first-child")].map(cell => '
        'getComputedStyle(cell).borderLeftStyle))])'))


def check_router(tally, browser, folder):
    status, table, _ = run(PROGRAM, 'synth', 'iptables', os.path.join(EXAMPLES, 'site.txt'), os.path.join(EXAMPLES, 'router.saved'), 'new')
    count = int(table.split()[2]) if status == 0 else 0
    tally.check("the router's table: status", 0, status)
    name = os.path.join(folder, 'router.html')
    write(name, run(VIEW, '--html', told=table)[1])
    for width in (420, 1200):
        browser.size(width, 1000)
        browser.open(name)
        tally.holds("the router's page at %d pixels" % width, browser.value('document.documentElement.scrollWidth') <= width,
                    'is wider')
        told = browser.value('getComputedStyle(document.querySelector("section td"), "::before").content')
        tally.check("the router's page at %d pixels: names of fields beside the values" % width, '"proto"' if width == 420 else 'none', told)
        if width == 420:
            tally.check("the router's page at 420 pixels: fields that may be anything", 0, browser.value(
                '[...document.querySelectorAll("section td")].filter(cell => cell.textContent === "*" && cell.offsetHeight).length'))
    tally.check("the router's page: rows", count, browser.value('document.querySelectorAll("section tr").length'))
    if os.environ.get('FWS_PICTURE'):
        browser.picture(os.environ['FWS_PICTURE'])
    browser.value('box.focus()')
    browser.type('wan accept')
    told = [line for line in table.splitlines() if line.startswith('wan ') and ' : accept' in line]
    tally.check("the router's page: wan accept", '%d of %d rows' % (len(told), count), browser.value('shown.textContent'))


def long_table(count):
    """A table of many rows, as one of many services has."""
    rows = []
    for k in range(count):
        outcome = 'accept dst=10.1.%d.%d:8080' % (k >> 8 & 255, k & 255) if k % 3 else 'drop'
        rows.append('%s 6 172.16.%d.%d %d,%d-%d 10.0.0.0-10.0.%d.255,192.168.0.0-192.168.255.255 * 2-3,6-7 * : %s' % (
            ('host', 'lan', 'wan')[k * 3 // count], k >> 8, k & 255, k % 60000, k % 60000 + 2, k % 60000 + 9, k & 255, outcome))
    return 'table new %d\n%s\n' % (count, '\n'.join(rows))


def check_long(tally, browser, folder):
    name = os.path.join(folder, 'long.html')
    write(name, run(VIEW, '--html', told=long_table(10000))[1])
    seconds = min(browser.open(name) for _ in range(3))
    tally.check('10,000 rows', 10000, browser.value('document.querySelectorAll("section tr").length'))
    spent = browser.value('(() => { const begin = performance.now(); box.value = "dst=172.16.3.7"; filter(); '
                          'document.body.offsetHeight; return performance.now() - begin })()') / 1000
    tally.check('10,000 rows: the box', '1 of 10000 rows', browser.value('shown.textContent'))
    if max(seconds, spent) >= 3 and os.getloadavg()[0] > os.cpu_count():
        tally.skip('10,000 rows in 3 seconds', 'the machine is busy, it took %.1f' % max(seconds, spent))
    else:
        tally.holds('10,000 rows open in 3 seconds', seconds < 3, '%.1f seconds' % seconds)
        tally.holds('10,000 rows: the box answers in 3 seconds', spent < 3, '%.1f seconds' % spent)
    print('10,000 rows open in %.1f seconds, and the box answers in %.1f' % (seconds, spent))


def check(tally):
    check_words(tally)
    check_columns(tally)
    check_json(tally)
    check_terminal(tally)
    check_others(tally)
    check_page(tally)
    if not browser_name():
        tally.skip('the page in a browser', 'no Chromium')
        return
    browser = None
    try:
        browser = Browser()
        with tempfile.TemporaryDirectory() as folder:
            os.chmod(folder, 0o755)
            check_searches(tally, browser, folder)
            check_router(tally, browser, folder)
            check_long(tally, browser, folder)
    except TimeoutError as why:
        tally.holds('the page in a browser', False, str(why))
    finally:
        if browser:
            browser.end()


if __name__ == '__main__':
    from common import Tally
    TALLY = Tally()
    check(TALLY)
    print(TALLY.right, TALLY.wrong, TALLY.skipped)

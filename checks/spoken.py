"""Compares what the program says of itself with `--help`, and the scripts around it with theirs, with the manual page, the
completions and the page of the commands. It is a part of checks/documents.py.

- `fws --help` has a line for each command, and names the languages, those that policies are written in, the fields, the
  verdicts and the exit statuses.
- The manual page has each of these forms in its synopsis and below "The commands are", names just these languages, targets,
  fields and statuses, and the options of ./fws and of the tools.
- Each command has a page, which begins with its form, names just the languages, targets, fields and statuses that it takes, and fits a
  terminal of 80 columns.
- The manual page of each tool has just the options of its own help.
- The completions have just these words, and the options.
- The rows of `synth` and `translate` in the page of the commands name just these languages and targets.
- Each command that a document shows is one of these, and documents name the options of ./fws and of the tools.
"""

import re
import subprocess

PAGE = 'crates/fws_test_commands/data/%s.page'  # what `fws COMMAND --help` writes
COLUMNS = 80
MANUAL = 'share/man/man1/fws.1'
COMPLETIONS = ('share/bash-completion/completions/fws', 'share/zsh/site-functions/_fws')
TOOLS = ('tools/ask', 'tools/site-of-host', 'tools/view')
TOOL_MANUAL = 'share/man/man1/fws-%s.1'
TOOL_COMPLETIONS = ('share/bash-completion/completions/fws-ask', 'share/zsh/site-functions/_fws_tools')


class Spoken:
    """The words of `fws --help`."""

    def __init__(self, lines):
        self.forms = [re.split(r'\s{2,}', line)[0].split() for line in lines if line.startswith('fws ')]
        text = '\n'.join(lines)
        self.languages = self.words(text, r'^languages: ([^;\n]*)')
        self.targets = self.words(text, r'; TO, and LANG of why and dead: ([^;\n]*)')
        self.fields = self.words(text, r'^fields: ([^,;\n]*)')
        self.est_fields = self.words(text, r'with est also ([^,;\n]*)')
        self.verdicts = re.findall(r'verdict=(\w+)', text)
        self.statuses = re.findall(r'(?<![\w])(\d) ', ''.join(line for line in lines if line.startswith('exit status: ')))

    @staticmethod
    def words(text, form):
        found = re.search(form, text, re.M)
        return found[1].split() if found else []

    def commands(self):
        return [form[1] for form in self.forms]


def read(name):
    with open(name, encoding='utf-8') as file:
        return file.read()


def script_options():
    """The options of ./fws: the words that its `case` tells apart, beside those of the program that it answers itself."""
    return sorted(set(re.findall(r'\d:(--[a-z]+)', read('fws'))) - {'--help', '--version'})


def tool_options(tool):
    """The options that a tool's own help names."""
    said = subprocess.run([tool, '--help'], stdout=subprocess.PIPE, check=False).stdout.decode()
    return sorted(set(re.findall(r'--[a-z][a-z-]*', said.partition('options:')[2])) - {'--help'})


# The pages of the commands


def told_words(text, first, name):
    """The words that a page lists for one of its words: those behind the colon, up to the next word of the form."""
    found = re.search(r'^  %s +%s((?:.|\n {5,})*)' % (name, first), text, re.M)
    return [word for word in re.findall(r'[a-z]\w*', found[1]) if word != 'or'] if found else []


def check_words(tally, spoken, form, name, text):
    """The languages, targets, fields and verdicts of a page."""
    known = spoken.targets if form[1] in ('why', 'dead') else spoken.languages
    for word in {'LANG', 'FROM'} & set(form):
        found = told_words(text, 'the language of FILE: ', word)
        tally.check(found == known, name, 1, '%s is %s, and --help has %s' % (word, found, known))
    if 'TO' in form:
        found = told_words(text, 'the language of the answer: ', 'TO')
        tally.check(found == spoken.targets, name, 1, 'TO is %s, and --help has %s' % (found, spoken.targets))
    if form[1] == 'query':
        fields = told_words(text, '', 'FIELD')
        tally.check(set(spoken.fields + spoken.est_fields) <= set(fields), name, 1, 'its fields are not all that --help has')
        tally.check(re.findall(r'verdict=(\w+)', text) == spoken.verdicts, name, 1, 'its verdicts are not those of --help')


def check_pages(tally, spoken):
    for form in spoken.forms:
        name = PAGE % form[1]
        text = read(name)
        lines = text.split('\n')
        tally.check(lines[0] == ' '.join(form), name, 1, 'it begins with `%s`, and --help lists `%s`' % (lines[0], ' '.join(form)))
        for number, line in enumerate(lines, 1):
            tally.check(len(line) <= COLUMNS, name, number, 'a line of %d columns' % len(line))
        check_words(tally, spoken, form, name, text)
        example, _, statuses = text.partition('example: ')[2].partition('exit status: ')
        tally.check(re.findall(r'fws (\w+)', example) == [form[1]], name, 1, 'its example is `%s`' % example)
        others = {'translate': '', 'load': '134'}.get(form[1], '1')
        wanted = [status for status in spoken.statuses if status not in others]
        tally.check(re.findall(r'(?<!\w)(\d) ', statuses) == wanted, name, 1, 'its statuses are not %s' % wanted)


# The manual page


def section(text, name):
    """The lines of a section or a subsection of a page in mdoc."""
    found = re.search(r'^\.S[hs] %s\n(.*?)(?=^\.S[hs] |\Z)' % re.escape(name), text, re.M | re.S)
    return found[1].split('\n') if found else []


def plain(line):
    """The words of a line in mdoc without macros and escapes: `.It Cm dst , src` as `dst , src`."""
    words = [word for word in line.lstrip('.').split() if word not in (
        'Cm', 'Ar', 'Fl', 'Op', 'It', 'Li', 'Nm', 'Ns', 'No', 'Oo', 'Oc', 'Ql', 'Pa')]
    return words


def synopsis_forms(text):
    """The forms of the synopsis, each as words, options with both dashes."""
    forms = []
    for line in section(text, 'SYNOPSIS'):
        if line == '.Nm':
            forms.append([])
        elif line and forms:
            words = [word if not word.startswith('-') else '-' + word for word in plain(line)]
            forms[-1] += [''.join(words)] if '=' in words else words
    return [' '.join(form) for form in forms]


def listed_words(lines, first):
    """The words between a line that is `first` and a line of text behind it, as in a list of words with commas."""
    found = []
    for line in lines[lines.index(first) + 1:] if first in lines else []:
        if line.startswith('.Cm '):
            found += [word for word in line.split()[1:] if word not in (',', '.')]
        elif line != 'and':
            break
    return found


def check_manual(tally, spoken):
    text = read(MANUAL)
    told = synopsis_forms(text)
    wanted = [' '.join(form[1:]).replace('new|est', 'new | est').replace('[', '').replace(']', '').replace(' ..', '...')
              for form in spoken.forms]
    for form in wanted:
        tally.check(form in told, MANUAL, 1, 'the synopsis has not `%s`, which --help lists; it has %s' % (form, told))
    options = [form for form in told if form.startswith('--')]
    tally.check(sorted(options) == ['--help', '--version'], MANUAL, 1, 'the synopsis has the options %s' % options)
    tally.check('COMMAND --help' in told, MANUAL, 1, 'the synopsis has no `COMMAND --help`')
    tally.check(len(told) == len(wanted) + 3, MANUAL, 1, 'the synopsis has %d forms, of which %d are known' % (len(told), len(wanted) + 3))
    lines = section(text, 'DESCRIPTION')
    items = [line.split()[2] for line in lines if line.startswith('.It Cm ')]
    tally.check(items == spoken.commands(), MANUAL, 1, 'its commands are %s, and --help lists %s' % (items, spoken.commands()))
    tally.check(listed_words(lines, 'are one of') == spoken.languages, MANUAL, 1, 'its languages are not %s' % spoken.languages)
    tally.check(listed_words(lines, 'is one of') == spoken.targets, MANUAL, 1, 'its targets are not %s' % spoken.targets)
    fields = [word for line in section(text, 'Fields of a query') if line.startswith('.It ') for word in plain(line) if word != ',']
    tally.check(sorted(fields) == sorted(spoken.fields + spoken.est_fields + ['verdict']), MANUAL, 1, 'its fields are %s' % fields)
    statuses = [line.split()[1] for line in section(text, 'EXIT STATUS') if line.startswith('.It ')]
    tally.check(statuses == spoken.statuses, MANUAL, 1, 'its statuses are %s, and --help has %s' % (statuses, spoken.statuses))
    named = sorted('-' + line.split()[2] for line in section(text, 'The script of a checkout') if line.startswith('.It Fl '))
    tally.check(named == script_options(), MANUAL, 1, 'the options of ./fws are %s, and it names %s' % (script_options(), named))
    for tool in TOOLS:
        item = next((line for line in section(text, 'Tools') if line.startswith('.It Nm fws-%s ' % tool.partition('/')[2])), '')
        named = sorted('-' + word for word in re.findall(r'Fl (-[a-z-]+)', item))
        tally.check(named == tool_options(tool), MANUAL, 1, '%s has the options %s, and it names %s' % (tool, tool_options(tool), named))


def check_tool_manuals(tally):
    for tool in TOOLS:
        page = TOOL_MANUAL % tool.partition('/')[2]
        items = [line for line in read(page).split('\n') if line.startswith('.It Fl ')]
        named = sorted('-' + word for line in items for word in re.findall(r'Fl (-[a-z-]+)', line))
        tally.check(named == tool_options(tool), page, 1, '%s has the options %s, and it names %s' % (tool, tool_options(tool), named))


# The completions


def check_tool_completion(tally, name, spoken):
    known = dict(re.findall(r"^_fws_(\w+)='([^']*)'", read(name), re.M))
    for tool in TOOLS:
        found = sorted(known.get(tool.partition('/')[2].replace('-', '_') + '_options', '').split())
        wanted = sorted(tool_options(tool) + ['--help'])
        tally.check(found == wanted, name, 1, '%s has the options %s, and it has %s' % (tool, wanted, found))
    found = known.get('ask_languages', '').split()
    tally.check(sorted(found) == sorted(spoken.languages), name, 1, 'its languages are %s, and --help has %s' % (found, spoken.languages))


def check_completion(tally, name, spoken):
    text = read(name)
    known = dict(re.findall(r"^_fws_(\w+)='([^']*)'", text, re.M))
    for kind, wanted in (('commands', spoken.commands()), ('languages', spoken.languages), ('targets', spoken.targets),
                         ('fields', spoken.fields), ('est_fields', spoken.est_fields), ('verdicts', spoken.verdicts),
                         ('states', ['new', 'est']), ('options', ['--help', '--version'])):
        found = known.get(kind, '').split()
        tally.check(found == wanted, name, 1, 'its %s are %s, and --help has %s' % (kind, found, wanted))
    found = sorted(known.get('script_options', '').split())
    tally.check(found == script_options(), name, 1, 'the options of ./fws are %s, and it has %s' % (script_options(), found))


# The documents


def check_shown(tally, documents, spoken):
    """Each command that a block shows is one that --help lists, with its languages, or an option of ./fws."""
    options = script_options() + ['--help', '--version']
    for document in documents:
        for block in document.blocks:
            for number, line in enumerate(block.lines, block.line):
                for words in re.findall(r'(?<![\w./])\./fws((?: [\w.=|/-]+)+)', line if line.startswith('$ ') else ''):
                    command, *rest = words.split()
                    tally.check(command in spoken.commands() + options, document.name, number, '`%s` is no command' % command)
                    if rest == ['--help']:
                        continue
                    if command == 'translate':
                        tally.check(rest[1] in spoken.targets, document.name, number, '`%s` is no target' % rest[1])
                    if command in ('synth', 'query', 'trace', 'why', 'run', 'same', 'dead', 'translate'):
                        known = spoken.targets if command in ('why', 'dead') else spoken.languages
                        tally.check(rest[0] in known, document.name, number, '`%s` is no language of %s' % (rest[0], command))


def check_rows(tally, page, documents, spoken):
    """The row of `synth` in the page of the commands names just the languages, and that of `translate` just the targets."""
    for command, wanted in (('synth', spoken.languages), ('translate', spoken.targets)):
        rows = [passage for document in documents if document.name == page for passage in document.passages
                if passage.text.startswith('| `./fws %s ' % command)]
        if tally.check(len(rows) == 1, page, 1, '%d rows of a table begin with `./fws %s`' % (len(rows), command)):
            found = [word for word, _ in rows[0].codes() if word in spoken.languages + spoken.targets]
            tally.check(found == wanted, page, rows[0].line, 'it names %s for %s, and --help has %s' % (found, command, wanted))


def check_options_named(tally, page, documents):
    """Some document names the options of ./fws, and those of the tools."""
    codes = {word for document in documents for passage in document.passages for word, _ in passage.code_words()}
    for option in script_options():
        tally.check(option in codes, page, 1, 'no document names %s, an option of ./fws' % option)
    for tool in TOOLS:
        tally.check(tool in codes, page, 1, 'no document names %s' % tool)
        for option in tool_options(tool):
            tally.check(option in codes, page, 1, 'no document names %s, an option of %s' % (option, tool))


def check_spoken(tally, documents, page, help_lines):
    """All of the above; `page` is the document of the commands, and `help_lines` what `fws --help` writes."""
    spoken = Spoken(help_lines)
    for name, words in (('commands', spoken.forms), ('languages', spoken.languages), ('targets', spoken.targets),
                        ('fields', spoken.fields), ('further fields', spoken.est_fields), ('verdicts', spoken.verdicts),
                        ('statuses', spoken.statuses)):
        tally.check(words, 'crates/fws_top/src/texts.rt', 1, '--help has no %s that are told in the known form' % name)
    check_pages(tally, spoken)
    check_manual(tally, spoken)
    for name in COMPLETIONS:
        check_completion(tally, name, spoken)
    check_tool_manuals(tally)
    for name in TOOL_COMPLETIONS:
        check_tool_completion(tally, name, spoken)
    check_shown(tally, documents, spoken)
    check_rows(tally, page, documents, spoken)
    check_options_named(tally, page, documents)

"""The fields of packets, for the tools around fws: sets of values as fws writes them, and the same in the words of an administrator.

fws writes a set as `*`, or as decimals, addresses and ranges `lo-hi` with commas between. In words a set has networks in place of
ranges, names of services, protocols, flags and types of ICMP in place of numbers, and `!` ahead of what isn't in it, where that is
shorter: `!10.0.0.0/24`, `!{icmp,tcp}`, `SYN, not ACK`. A set is a list of pairs here, the least and the greatest value of each range,
in ascending order.
"""

import functools
import re

FIELDS = ('entry', 'proto', 'dst', 'dport', 'src', 'sport', 'flags', 'icmp', 'rdst', 'rdport', 'rsrc', 'rsport')
COUNTS = {'new': 8, 'est': 12}  # how many of them a row of a table has
ADDRESSES = ('dst', 'src', 'rdst', 'rsrc')
PORTS = ('dport', 'sport', 'rdport', 'rsport')
TOPS = {'proto': 255, 'flags': 63, 'icmp': 255, **{name: 0xffffffff for name in ADDRESSES}, **{name: 0xffff for name in PORTS}}

# The names that docs/PROFILES.md lists; of two for one number the first is written.
SERVICES = {
    'ftp-data': 20, 'ftp': 21, 'ssh': 22, 'telnet': 23, 'smtp': 25, 'domain': 53, 'bootps': 67, 'bootpc': 68, 'tftp': 69, 'http': 80,
    'www': 80, 'pop3': 110, 'ident': 113, 'nntp': 119, 'ntp': 123, 'netbios-ns': 137, 'netbios-dgm': 138, 'netbios-ss': 139, 'imap': 143,
    'snmp': 161, 'snmptrap': 162, 'bgp': 179, 'https': 443, 'smtps': 465, 'isakmp': 500, 'syslog': 514, 'lpd': 515, 'rip': 520,
    'imaps': 993, 'pop3s': 995, 'non500-isakmp': 4500,
}
PROTOCOLS = {
    'icmp': 1, 'igmp': 2, 'ipencap': 4, 'tcp': 6, 'udp': 17, 'dccp': 33, 'ipv6': 41, 'gre': 47, 'esp': 50, 'ah': 51, 'eigrp': 88,
    'ospf': 89, 'pim': 103, 'vrrp': 112, 'sctp': 132, 'udplite': 136,
}
TYPES = {
    'echo-reply': 0, 'unreachable': 3, 'redirect': 5, 'echo-request': 8, 'time-exceeded': 11, 'parameter-problem': 12,
    'timestamp-request': 13, 'timestamp-reply': 14,
}
FLAGS = ('FIN', 'SYN', 'RST', 'PSH', 'ACK', 'URG')
KINDS = {'proto': 'protocol', 'flags': 'flags', 'icmp': 'type of ICMP', **{name: 'address' for name in ADDRESSES},
         **{name: 'port' for name in PORTS}}


class NoValue(Exception):
    """A text is no set of a field's values; the argument says why."""


def names_of(field):
    """The names that values of this field have, with their numbers."""
    return SERVICES if field in PORTS else {'proto': PROTOCOLS, 'icmp': TYPES}.get(field, {})


# Sets


def whole(field):
    return [(0, TOPS[field])]


def joined(ranges):
    """The set of all values in these ranges."""
    found = []
    for low, high in sorted(ranges):
        if found and low <= found[-1][1] + 1:
            found[-1] = found[-1][0], max(high, found[-1][1])
        else:
            found.append((low, high))
    return found


def common(one, other):
    """The values that two sets have in common."""
    found, k, j = [], 0, 0
    while k < len(one) and j < len(other):
        low, high = max(one[k][0], other[j][0]), min(one[k][1], other[j][1])
        if low <= high:
            found.append((low, high))
        if one[k][1] < other[j][1]:
            k += 1
        else:
            j += 1
    return found


def without(one, other):
    """The values of one set that the other hasn't."""
    found = []
    for low, high in one:
        for begin, end in other:
            if end < low or begin > high:
                continue
            if begin > low:
                found.append((low, begin - 1))
            low = end + 1
        if low <= high:
            found.append((low, high))
    return found


def has(ranges, value):
    return any(low <= value <= high for low, high in ranges)


# As fws writes them


def quad_of(text):
    """The address that four decimals spell, or None."""
    parts = text.split('.')
    if len(parts) != 4 or not all(re.fullmatch(r'[0-9]{1,3}', part) and int(part) < 256 for part in parts):
        return None
    value = 0
    for part in parts:
        value = value * 256 + int(part)
    return value


def spell_quad(value):
    return '.'.join(str(value >> shift & 255) for shift in (24, 16, 8, 0))


def network(address, length):
    """The range of a network."""
    low = address & 0xffffffff << 32 - length & 0xffffffff
    return low, low + (1 << 32 - length) - 1


def number_of(field, text):
    """The value that a text spells in decimals or as an address, or None."""
    if field in ADDRESSES:
        return quad_of(text)
    return int(text) if re.fullmatch(r'[0-9]{1,5}', text) and int(text) <= TOPS[field] else None


def spell(field, value):
    return spell_quad(value) if field in ADDRESSES else str(value)


@functools.lru_cache(maxsize=4096)
def read_set(field, text):
    """The set that fws wrote."""
    if text == '*':
        return whole(field)
    found = []
    for item in text.split(','):
        low, dash, high = item.partition('-')
        ends = number_of(field, low), number_of(field, high if dash else low)
        if None in ends or ends[0] > ends[1]:
            raise NoValue('%s is no %s' % (item, KINDS[field]))
        found.append(ends)
    return joined(found)


def write_set(field, ranges):
    """The set as fws reads it in a query."""
    if ranges == whole(field):
        return '*'
    return ','.join(spell(field, low) + ('-' + spell(field, high) if high > low else '') for low, high in ranges)


# In words


def networks_of(low, high):
    """The networks of which a range is made, the least first: pairs of an address and a length."""
    found = []
    while low <= high:
        size = low & -low or 1 << 32
        while size > high - low + 1:
            size >>= 1
        found.append((low, 33 - size.bit_length()))
        low += size
    return found


def item_in_words(field, low, high, names):
    if field in ADDRESSES and low < high:
        networks = ','.join(spell_quad(address) + ('/%d' % length if length < 32 else '') for address, length in networks_of(low, high))
        return min((networks, '%s-%s' % (spell_quad(low), spell_quad(high))), key=len)
    if low == high:
        return names.get(low) or spell(field, low)
    return '%d-%d' % (low, high) if field not in ADDRESSES else spell_quad(low)


def flag_words(ranges):
    """What a set of flags says, where it asks of single flags alone: `SYN, not ACK`; else nothing."""
    values = [value for low, high in ranges for value in range(low, high + 1)]
    if not values:
        return ''
    fixed = [bit for bit in range(6) if len({value >> bit & 1 for value in values}) == 1]
    if len(values) != 2 ** (6 - len(fixed)):
        return ''
    if len(fixed) == 6:
        return ' and '.join(FLAGS[bit] for bit in fixed if values[0] >> bit & 1) + ' alone' if values[0] else 'none'
    return ', '.join(('' if values[0] >> bit & 1 else 'not ') + FLAGS[bit] for bit in sorted(fixed, key=lambda bit: not values[0] >> bit & 1))


def items_in_words(field, ranges, sign, names):
    """The items of a set with commas between, behind the sign, in braces where there are several behind one."""
    text = ','.join(item_in_words(field, low, high, names) for low, high in ranges)
    return sign + ('{%s}' % text if sign and ',' in text else text)


def in_words(field, ranges):
    """A set in words. One range or network stays, and names don't count where it is asked whether `!` and the rest are shorter."""
    if not ranges:
        return 'nothing'
    if ranges == whole(field):
        return '*'
    rest = without(whole(field), ranges)
    if field == 'flags':
        said, other = flag_words(ranges), flag_words(rest)
        if said or other:
            return said or '!(%s)' % other
    is_one = len(ranges) == 1 and (field not in ADDRESSES or len(networks_of(*ranges[0])) == 1)
    forms = ((ranges, ''),) if is_one else ((ranges, ''), (rest, '!'))
    chosen = min(forms, key=lambda form: len(items_in_words(field, *form, {})))
    names = {}
    for name, number in names_of(field).items():
        names.setdefault(number, name)
    return items_in_words(field, *chosen, names)


@functools.lru_cache(maxsize=65536)
def text_in_words(field, text):
    """A set that fws wrote, in words; entries, and what can't be read, as they are."""
    try:
        return text if field not in TOPS else in_words(field, read_set(field, text))
    except NoValue:
        return text


def range_of_word(field, word):
    """The range that one item names: a value, a name, a range, or a network."""
    if field in ADDRESSES:
        address, slash, length = word.partition('/')
        if slash:
            value = quad_of(address)
            if value is None or not re.fullmatch(r'[0-9]{1,2}', length) or int(length) > 32:
                raise NoValue('%s is no network' % word)
            return network(value, int(length))
    names = names_of(field)
    if word.lower() in names:
        return (names[word.lower()],) * 2
    low, dash, high = word.partition('-') if '-' in word else word.partition(':')
    ends = [names.get(end.lower(), number_of(field, end)) for end in ((low, high) if dash else (low, low))]
    if None in ends:
        raise NoValue('%s is no %s' % (word, KINDS[field]))
    if ends[0] > ends[1]:
        raise NoValue('%s goes from a greater value to a smaller one' % word)
    return ends[0], ends[1]


def flags_of_words(text):
    """The set of flags in which those that are named are set, and those behind `!` or `not` are clear."""
    number = number_of('flags', text)
    if number is not None:
        return [(number, number)]
    is_set = is_clear = 0
    for word in text.upper().replace(',', ' ').replace('NOT ', '!').split():
        if word.lstrip('!') not in FLAGS:
            raise NoValue('%s is no flag: there are %s' % (word.lstrip('!').lower(), ', '.join(name.lower() for name in FLAGS)))
        bit = 1 << FLAGS.index(word.lstrip('!'))
        if word.startswith('!'):
            is_clear |= bit
        else:
            is_set |= bit
    if is_set & is_clear or not is_set | is_clear:
        raise NoValue('%s asks for no packet' % text)
    return joined((value, value) for value in range(64) if value & is_set == is_set and not value & is_clear)


def set_of_words(field, text):
    """The set that a word asks for: items with commas between, `!` ahead of one, or of several in braces, or `*` or `any`."""
    if text in ('*', 'any'):
        return whole(field)
    if field == 'flags':
        return flags_of_words(text)
    inner = text[1:] if text.startswith('!') else text
    if inner.startswith('{') and inner.endswith('}'):
        inner = inner[1:-1]
    found = joined(range_of_word(field, item) for item in inner.split(','))
    return without(whole(field), found) if text.startswith('!') else found

#!/usr/bin/env python3
"""Texts that a careless reader of YAML would be slow or large on, of about so many bytes each.

usage: texts.py BYTES FOLDER
"""
import math
import os
import sys


def keys(count):
    return ','.join('%x: x' % i for i in range(count))


def repeated(head, member, count, tail):
    return head + member * count + tail


# A map whose key `k` is explicit merges one whose `k` is 29 lists deep.
DEEP = 'a: &a\n  k: ' + '[' * 29 + 'x' + ']' * 29 + '\nb:\n c:\n  k: 1\n  <<: *a\n'


def dropped_lines(size):
    return DEEP + 'd:\n' + '-\n' * min(size // 2 - 60, 490_000)


def dropped_map(size):
    return DEEP + ''.join('%x:\n' % (i + 0x10000) for i in range(size // 7))


def dropped_then_aliases(size):
    return DEEP + repeated('l: &l [', '[],', size // 6, ']\n') + repeated('m: [', '*l,', size // 6, ']\n')


def merges_nested(size):
    return 'a: ' + '{<<: ' * (size // 12) + '{' + keys(size // 14) + '}' + '}' * (size // 12) + '\n'


def merges_nested_own(size):
    count = size // 24
    return 'a: ' + ''.join('{k%x: x,<<: ' % i for i in range(count)) + '{' + keys(size // 20) + '}' + '}' * count + '\n'


def merges_nested_lists(size):
    return 'a: ' + '{<<: [' * (size // 16) + '{' + keys(size // 20) + '}' + ']}' * (size // 16) + '\n'


# A merge that is open holds a pair that its map drops, and then many lines more.
def open_dropped(size):
    nested = 'r:\n' + ''.join(' ' * (i + 1) + '-\n' for i in range(28))
    dropped = ' ' * 30 + 'k: 1\n' + ' ' * 30 + '<<:\n' + ' ' * 31 + 'k: [[[[[]]]]]\n'
    return nested + dropped + ''.join(' ' * 31 + '%x: x\n' % i for i in range(size // 40))


# The same, where each of the lines has a value of its own that is too deep and dropped.
def open_dropped_each(size):
    count = size // 84
    nested = 'r:\n' + ''.join(' ' * (i + 1) + '-\n' for i in range(28))
    keys = ''.join(' ' * 30 + '%x: 1\n' % i for i in range(count))
    return nested + keys + ' ' * 30 + '<<:\n' + ''.join(' ' * 31 + '%x: [[[[[]]]]]\n' % i for i in range(count))


# The same, where the map around merged the keys before, or one around that, or the lines are items.
def dropped_by(size, first, member, around=0):
    count = size // 84
    nested = 'r:\n' + ''.join(' ' * (i + 1) + '-\n' for i in range(28))
    names = ', '.join('%x: 1' % i for i in range(count))
    head, taken = first(names)
    open_merges = ''.join(' ' * (30 + i) + '<<:\n' for i in range(around + 1))
    lines = ''.join(' ' * (31 + around) + member % i for i in range(count))
    return head + nested + ' ' * 30 + '<<: ' + taken + '\n' + open_merges + lines


def by_map(names):
    return '', '{' + names + '}'


def by_alias(names):
    return 'm: &m {' + names + '}\n', '*m'


def by_list(names):
    return '', '[{' + names + '}, {z: 1}]'


def by_draft(names):
    return '', '{<<: {' + names + '}, z: 1}'


def by_drafts(names):
    return '', '{<<: {<<: [{<<: {<<: {' + names + '}, y: 1}, w: 1}, {z: 1}], v: 1}, u: 1}'


def by_draft_alias(names):
    return 'n:\n  <<: &m {<<: {' + names + '}, z: 1}\n', '*m'


DEEP_ENTRY = '%x: [[[[[]]]]]\n'


# The key of each line was an earlier item's.
def dropped_in_list(size):
    count = size // 90
    nested = 'r:\n' + ''.join(' ' * (i + 1) + '-\n' for i in range(28))
    names = ', '.join('%x: 1' % i for i in range(count))
    lines = ''.join(' ' * 31 + '- %x: [[[[[]]]]]\n' % i for i in range(count))
    return nested + ' ' * 30 + '<<:\n' + ' ' * 31 + '- {' + names + '}\n' + lines


# Aliases of a wide map, each in a map of its own below a chain of open merges whose outermost drops it.
def dropped_by_chain(size):
    levels = int(math.sqrt(size) * 0.65)
    count = min(1000, size // 100)
    head = 'm: &m {' + ', '.join('%x: [x]' % i for i in range(count)) + '}\nr:\n'
    nested = ''.join(' ' * (i + 1) + '-\n' for i in range(29))
    taken = ' ' * 31 + '<<: {' + ', '.join('%x: 1' % i for i in range(count)) + '}\n'
    chain = ''.join(' ' * (31 + i) + 'k: 1\n' + ' ' * (31 + i) + '<<:\n' for i in range(levels))
    member = ' ' * (31 + levels) + '<<:\n' + ' ' * (32 + levels) + '<<: *m\n'
    text = head + nested + taken + chain
    return text + member * min((size - len(text)) // len(member), 480_000 // (2 * count + 1))


# The same, where each alias is of a map with other keys.
def dropped_by_chain_apart(size):
    levels = int(math.sqrt(size) * 0.55)
    nested = 'r:\n' + ''.join(' ' * (i + 1) + '-\n' for i in range(29))
    chain = ''.join(' ' * (31 + i) + 'k: 1\n' + ' ' * (31 + i) + '<<:\n' for i in range(1, levels + 1))
    left = size - len(nested) - len(chain)
    maps = max(1, left // (12 * levels))
    count = min(left * 9 // 10 // 22, 90_000) // maps
    heads = ''.join('m%x: &m%x {' % (i, i) + ', '.join('%x: [x]' % (i * count + j) for j in range(count)) + '}\n' for i in range(maps))
    taken = ' ' * 31 + '<<: {' + ', '.join('%x: 1' % i for i in range(maps * count)) + '}\n' + ' ' * 31 + '<<:\n'
    return heads + nested + taken + chain + ''.join(' ' * (32 + levels) + '<<: *m%x\n' % i for i in range(maps))


# Merges nested in one line bring a deep value that the outer one drops, line by line.
def hidden_in_lines(size):
    head = 'd: &d\n  k: ' + '[' * 29 + 'x' + ']' * 29 + '\n'
    return head + ''.join('k%x: [[{k: 1, <<: {x: y, <<: *d}}]]\n' % i for i in range(min(size // 40, 12_000)))


# Each map of a chain of open merges has an anchor, and the aliases inside name others.
def aliases_in_a_chain(size):
    count = size // 60
    levels = int(math.sqrt(size) * 0.6)
    text = ''.join('r%x: &r%x x\n' % (i, i) for i in range(count))
    text += ''.join(' ' * i + 'k%x: &b%x x\n' % (i, i) + ' ' * i + '<<:\n' for i in range(levels))
    aliases = ('*r%x' % (i % count) for i in range((size - len(text)) // 7))
    return text + ' ' * levels + 'z: [' + ','.join(aliases) + ']\n'


# Many anchors in a chain of open merges that closes, each map with an anchor before it and a name.
def chain_closed(size):
    levels = int(size ** (1 / 3) * 1.5)
    text = ''.join(' ' * i + 'a: &a%x x\n' % i + ' ' * i + '<<: &n%x\n' % i for i in range(levels))
    count = (size - len(text)) // (levels + 14)
    return text + ''.join(' ' * levels + 'b%x: &b%x x\n' % (i, i) for i in range(count)) + 'z: 1\n'


# The same in lists and maps, two in each column, as deep as may be.
def lists_closed(size):
    level = '{0}k: x\n{0}l: &m{1}\n{0}- x\n{0}- &n{1}\n'
    text = ''.join(level.format(' ' * i, i) for i in range(15))
    return text + ''.join(' ' * 15 + '- &%x x\n' % i for i in range(size // 25)) + 'z: 1\n'


def merges_in_a_map(size):
    return 'a: &m {' + keys(size // 14) + '}\n' + repeated('b: {', '<<: *m,', size // 16, '}\n')


def merges_in_a_list(size):
    return 'a: &m {' + keys(size // 14) + '}\n' + repeated('b: [', '{<<: *m},', size // 22, ']\n')


def merged_lists(size):
    return repeated('a: &m [', '{},', size // 6, ']\n') + repeated('b: {', '<<: *m,', size // 18, '}\n')


def merged_twice(size):
    first = 'x: &x {' + ','.join('%x: x' % i for i in range(size // 24)) + '}\n'
    second = 'y: &y {' + ','.join('%x: [x]' % i for i in range(size // 30)) + '}\n'
    return first + second + repeated('b: [', '{<<: *x,<<: *y},', size // 50, ']\n')


def named_merges(size, name, own):
    levels = int(math.sqrt(size)) // (2 if own else 1)
    lines = []
    for i in range(levels):
        if own:
            lines.append(' ' * i + 'k%d: 1' % i)
        lines.append(' ' * i + '<<: &' + name(i))
    lines.append(' ' * levels + '<<: {' + keys(size // 16) + '}')
    lines.append('z: 1')
    return '\n'.join(lines) + '\n'


def chain_dropped(size):
    count = size // 30
    levels = int(math.sqrt(size)) // 2
    pairs = 'm: &m {' + ','.join('%x: [x]' % i for i in range(count)) + '}\n'
    nested = 'r:\n' + ''.join(' ' * (i + 1) + '-\n' for i in range(28))
    own = ''.join(' ' * 30 + '%x: x\n' % i for i in range(min(count, size // 80)))
    chain = '\n'.join(' ' * (30 + i) + '<<:' for i in range(levels))
    return pairs + nested + own + chain + '\n' + ' ' * (30 + levels) + '<<: *m\n'


def alias_bomb(size):
    text = 'a0: &a0 [x,x,x,x,x,x,x,x]\n'
    for i in range(1, 5):
        text += 'a%d: &a%d [' % (i, i) + ','.join(['*a%d' % (i - 1)] * 8) + ']\n'
    return text + repeated('b: [', '*a4,', size // 5, ']\n')


def many_anchors(size):
    count = size // 20
    return ''.join('- &a%x x\n' % i for i in range(count)) + '- [' + ','.join('*a%x' % i for i in range(count)) + ']\n'


GROUP = '''label%d:
    config: [check ISA:=regex(.*I.*)]
    mnemonics: {add: 0}
    rs1: {x1: 0, x2: 0, x3: 0}
    <<: [*a, *b]
    op_comb:
        "rs1 == rs2 != rd": 0
        "rs1 == rd": 0
    val_comb:
        abstract_comb:
            "sp_dataset(xlen)": 0
        "rs1_val > 0 and rs2_val > 0": 0
'''


def ordinary(size):
    text = 'a: &a\n    rs1: {x7: 0}\nb: &b\n    rd: {x1: 0}\n'
    return text + ''.join(GROUP % i for i in range((size - len(text)) // (len(GROUP) + 4)))


FAMILIES = {
    'dropped_lines': dropped_lines,
    'dropped_map': dropped_map,
    'dropped_then_aliases': dropped_then_aliases,
    'merges_nested': merges_nested,
    'merges_nested_own': merges_nested_own,
    'merges_nested_lists': merges_nested_lists,
    'open_dropped': open_dropped,
    'open_dropped_each': open_dropped_each,
    'dropped_by_map': lambda size: dropped_by(size, by_map, DEEP_ENTRY),
    'dropped_by_alias': lambda size: dropped_by(size, by_alias, DEEP_ENTRY),
    'dropped_by_list': lambda size: dropped_by(size, by_list, DEEP_ENTRY),
    'dropped_by_draft': lambda size: dropped_by(size, by_draft, DEEP_ENTRY),
    'dropped_by_drafts': lambda size: dropped_by(size, by_drafts, DEEP_ENTRY),
    'dropped_by_draft_alias': lambda size: dropped_by(size, by_draft_alias, DEEP_ENTRY),
    'dropped_items': lambda size: dropped_by(size, by_map, '- ' + DEEP_ENTRY),
    'dropped_far_out': lambda size: dropped_by(size, by_map, DEEP_ENTRY, 100),
    'dropped_in_list': dropped_in_list,
    'dropped_by_chain': dropped_by_chain,
    'dropped_by_chain_apart': dropped_by_chain_apart,
    'hidden_in_lines': hidden_in_lines,
    'aliases_in_a_chain': aliases_in_a_chain,
    'chain_closed': chain_closed,
    'lists_closed': lists_closed,
    'merges_in_a_map': merges_in_a_map,
    'merges_in_a_list': merges_in_a_list,
    'merged_lists': merged_lists,
    'merged_twice': merged_twice,
    'named_merges': lambda size: named_merges(size, lambda i: 'a', False),
    'named_apart': lambda size: named_merges(size, lambda i: 'a%d' % i, False),
    'named_apart_own': lambda size: named_merges(size, lambda i: 'a%d' % i, True),
    'chain_dropped': chain_dropped,
    'dashes': lambda size: '- ' * (size // 2) + '\n',
    'dashes_aliases': lambda size: '- &a x\n' + '- ' * (size // 4) + '[' + '*a,' * (size // 6) + ']\n',
    'brackets': lambda size: '[' * size,
    'brackets_closed': lambda size: '[' * (size // 2) + ']' * (size // 2),
    'curly_closed': lambda size: '{a: ' * (size // 5) + '}' * (size // 5),
    'alias_bomb': alias_bomb,
    'many_anchors': many_anchors,
    'many_keys': lambda size: ''.join('%x: x\n' % i for i in range(size // 9)),
    'ordinary': ordinary,
}


def main():
    size = int(sys.argv[1])
    for name, text in FAMILIES.items():
        with open(os.path.join(sys.argv[2], '%s_%d.yaml' % (name, size)), 'w') as file:
            file.write(text(size))


if __name__ == '__main__':
    main()

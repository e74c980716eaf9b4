#!/usr/bin/env python3
"""Runs the built program on large inputs, each made here, and prints what it took.

  docs/figures/measure.py [NAME..]           a line of a table for each input, or for those that are named
  docs/figures/measure.py --write FOLDER     writes the inputs as files

Instructions are counted by valgrind (`--tool=callgrind`), where it is on the path: the same on each run of one binary. Seconds
and memory are of runs without it: seconds the best of three, memory by GNU time, where that is on the path.
"""
import os, shutil, subprocess, sys, tempfile, time

TOP = os.path.join(os.path.dirname(os.path.abspath(__file__)), '..', '..')
PROGRAM = os.path.join(TOP, 'crates', 'sgenlab', 'out', 'sgenlab')


def program(settings, classes, script):
    return 'sgen 1\n' + settings + classes + 'mutator\n' + script + 'end\n'


NODE = 'class N map rr.\n'


def pauses():
    return program('nursery 4096\nblocks 4096\n', NODE,
                   'new r0 N\n' * 12 + ''.join(f'new r{i} N\nput r{i} 0 r{(i + 1) % 16}\n' for i in range(16)) + 'collect minor\n' * 2000)


def statements():
    return program('nursery 65536\n', 'class N map r.\n',
                   'new r0 N\nnew r1 N\n' + 'put r0 0 r1\nget r2 r0 0\nnum r3 7\nputd r0 1 r3\ngetd r4 r0 1\n' * 16000)


def promoted():
    return program('nursery 4096\nblocks 4096\n', NODE, 'new r0 N\nput r0 0 r1\nnew r1 N\nput r1 1 r0\n' * 12000)


def news():
    return program('nursery 4096\n', NODE, 'repeat 1000\nrepeat 1000\nnew r0 N\nend\nend\n')


def one_epoch():
    return program('', '', 'num r0 7\nrepeat 1000\nrepeat 1000\nnum r0 7\nend\nend\n')


def long_list():
    return program('nursery 65536\nblocks 4096\n', NODE, 'repeat 87000\nnew r0 N\nput r0 0 r1\nmove r1 r0\nend\n')


def with_old_list(nodes, pauses):
    """A list that is promoted, and then pauses, each after one `new` that a global holds."""
    return program('nursery 4096\nblocks 4096\n', 'class N map r.\n',
                   f'repeat {nodes}\nnew r0 N\nput r0 0 r1\ngput 0 r0\nmove r1 r0\nend\ndrop r0\ndrop r1\n'
                   f'repeat {pauses}\nnew r2 N\ngput 1 r2\ndrop r2\ncollect minor\nend\n')


def no_old_list():
    return with_old_list(1, 3000)


def old_list():
    return with_old_list(40000, 2000)


def long_old_list():
    return with_old_list(120000, 3000)


def majors(pauses):
    """A list of 20,000 objects that is promoted, and then major pauses, each after an object of 42 words."""
    return program('nursery 4096\nblocks 2048\n', NODE + 'class B plain 40\n',
                   f'repeat 20000\nnew r0 N\nput r0 0 r1\nmove r1 r0\nend\ndrop r0\nrepeat {pauses}\nnew r2 B\ncollect major\nend\n')


def one_major():
    return majors(1)


def sixty_majors():
    return majors(60)


def old_news():
    """A list of 40,000 objects, each made in the major heap, which is full at the end."""
    return program('nursery 4096\nblocks 512\n', NODE,
                   'repeat 40000\nmature r0 N\nput r0 0 r1\nput r0 1 r2\nmove r2 r1\nmove r1 r0\nend\n')


def swept_by_search():
    """A list of 20,000 objects that is promoted, and then major pauses, each after two objects of two sizes made in the major heap."""
    return program('nursery 4096\nblocks 2048\n', NODE + 'class B plain 40\n',
                   'repeat 20000\nnew r0 N\nput r0 0 r1\nmove r1 r0\nend\ndrop r0\nrepeat 60\nmature r2 B\nmature r3 N\ncollect major\nend\n')


def wide_objects():
    return program('', 'class W plain 62\n', 'new r0 W\n' * 60000)


def names():
    return program('', ''.join(f'class Name_of_a_class_number_{i} plain 2\n' for i in range(250)),
                   ''.join(f'new r{i % 16} Name_of_a_class_number_{i * 7 % 250}\n' for i in range(26000)))


def empty_repeats():
    return program('', '', 'repeat 1048576\n' * 4 + 'end\n' * 4)


def sixteen():
    """Sixteen scripts, each over global slots of its own."""
    def script(i):
        return 'mutator\n' + ''.join(f'new r{k % 3} N\nput r{k % 3} 0 r{(k + 1) % 3}\ngput {4 * i + k % 4} r{k % 3}\ngget r3 {4 * i + k % 4}\n'
                                     f'num r4 {k}\nputd r3 2 r4\ngetd r5 r3 2\n' for k in range(520)) + 'end\n'
    return 'sgen 1\nnursery 65536\nblocks 512\n' + NODE + ''.join(script(i) for i in range(16))


def nested_repeats():
    return program('', '', 'repeat 1\n' * 70000 + 'end\n' * 70000)


def one_byte_too_long():
    return '#' * 1048577


def line_feeds():
    return '\n' * 1048500


def generated():
    """Nothing is read: the program is made from the numbers of the command."""
    return ''


# Sixty turns that pass over the mutators by sevens.
TURNS = ','.join(str(7 * k % 16) for k in range(60))
# What makes the input, what the table says of it, and the command's words where they are not `run`.
INPUTS = [
    (pauses, 'a nursery of 4,096 words with 28 objects, and 2,000 `collect minor`', ['run']),
    (statements, '80,002 statements of five sorts, 944,066 bytes', ['run']),
    (promoted, 'a list that is promoted as it grows: 24,000 objects, 48,000 statements', ['run']),
    (news, 'a million `new`s of 5 words by two repeats, over a nursery of 4,096 words', ['run']),
    (one_epoch, 'a million `num`s by two repeats: one epoch', ['run']),
    (long_list, 'a list of 87,000 objects by a repeat, with the largest nursery and major heap', ['run']),
    (no_old_list, '3,000 pauses, each after one `new`, over 4,096 blocks and one old object', ['run']),
    (old_list, 'a list of 40,000 objects that is promoted, and then 2,000 such pauses', ['run']),
    (long_old_list, 'a list of 120,000 objects that is promoted, and then 3,000 such pauses', ['run']),
    (one_major, 'a list of 20,000 objects that is promoted, and a major pause, over 2,048 blocks', ['run']),
    (sixty_majors, 'the same with 60 major pauses, each after an object of 42 words', ['run']),
    (old_news, 'a list of 40,000 objects made by `mature` over 512 blocks, and 160,000 statements more', ['run']),
    (swept_by_search, 'a list of 20,000 objects that is promoted, and 60 major pauses, each after a `mature` of two sizes', ['run']),
    (wide_objects, '60,000 `new`s of 64 words over the default nursery', ['run']),
    (names, '250 classes with names of 26 bytes, and 26,000 `new`s of them', ['run']),
    (empty_repeats, 'four nested repeats of 1,048,576 over nothing', ['run']),
    (sixteen, 'sixteen mutators with 3,640 statements each', ['run']),
    (sixteen, 'the same by `replay` with a list of 60 turns', ['replay', TURNS]),
    (generated, '`gen 7 80000`: a program of four mutators with 19,998 statements each is made, read, run and summed up', ['gen', '7', '80000']),
    (nested_repeats, '70,000 nested repeats: refused, `limit nesting`', ['run']),
    (one_byte_too_long, '1,048,577 bytes: refused, `long`', ['run']),
    (line_feeds, '1,048,500 line feeds: refused, `syntax`', ['run']),
]


def timed(words, data):
    best = None
    for _ in range(3):
        with tempfile.TemporaryFile() as f:
            f.write(data)
            f.seek(0)
            begun = time.perf_counter()
            subprocess.run([PROGRAM, *words], stdin=f, stdout=subprocess.DEVNULL)
            gone = time.perf_counter() - begun
        best = gone if best is None else min(best, gone)
    return best


def memory(words, data):
    # A process that is begun here counts the memory of this one as its own; GNU time begins it from a small one.
    if shutil.which('time') is None:
        return None
    with tempfile.TemporaryFile() as f, tempfile.NamedTemporaryFile('r') as told:
        f.write(data)
        f.seek(0)
        subprocess.run([shutil.which('time'), '-f', '%M', '-o', told.name, PROGRAM, *words], stdin=f, stdout=subprocess.DEVNULL)
        return int(told.read().split()[-1]) / 1024


def counted(words, data):
    if shutil.which('valgrind') is None:
        return None
    with tempfile.TemporaryFile() as f:
        f.write(data)
        f.seek(0)
        ran = subprocess.run(['valgrind', '--tool=callgrind', '--callgrind-out-file=/dev/null', PROGRAM, *words],
                             stdin=f, stdout=subprocess.DEVNULL, stderr=subprocess.PIPE)
    return int(next(line for line in ran.stderr.decode('latin-1').split('\n') if 'Collected' in line).split()[-1])


if __name__ == '__main__':
    args = sys.argv[1:]
    if args and args[0] == '--write':
        for make, _, _ in INPUTS:
            with open(os.path.join(args[1], make.__name__ + '.sgen'), 'w') as f:
                f.write(make())
        sys.exit(0)
    if not os.access(PROGRAM, os.X_OK):
        sys.exit('measure.py: the program is missing: ./sgenlab run builds it')
    print('| Input | | Instructions | Seconds | Memory |\n|---|---|---|---|---|')
    for make, what, words in INPUTS:
        if args and make.__name__ not in args:
            continue
        data = make().encode()
        count, seconds, used = counted(words, data), timed(words, data), memory(words, data)
        told = '-' if count is None else f'{count / 1e6:.1f} million'
        held = '-' if used is None else f'{used:.1f} MiB'
        print(f'| `{make.__name__}` | {what} | {told} | {seconds:.2f} s | {held} |')

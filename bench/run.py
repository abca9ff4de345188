#!/usr/bin/env python3
"""Measures the built program: bench/run.py [reading|typing|encoding|guards|schemes|tables|models|hostile ..]
[--most BYTES]

Each text of a family is made at doubling sizes. For each the table gives the time per byte of input, the peak memory per
byte, and the ratio to the time of `wc -w` on the same file, the least of three runs in one sitting. A text ends in an
entry that is refused at the stage behind the one that is measured, so that only the stages up to it are run:
  reading    the last word is refused
  typing     a second conjecture is refused
  encoding   nothing is refused, and the output is thrown away
  guards     the typed lists are encoded by guards: the time is that per byte of output; where the peer why3 is installed
             its processor time for the same file by guards is told too, as a multiple, and where strace is, how many
             calls of the system write the output
  schemes    the typed lists are encoded by each scheme: the time is that per byte of output
  tables     a table with as many entries as there may be is checked
  models     models of the list problem are lowered, and what is written is lifted: the time is that per entry of the
             lowered table
  hostile    inputs of a few lines that would take a direct evaluation without end, each at two sizes
Last come the greatest over the least time per byte of each family from 1 MiB on, and the targets that are missed."""
import argparse
import os
import random
import shutil
import subprocess
import sys
import tempfile
import time

import hostile
import tables

HERE = os.path.dirname(os.path.abspath(__file__))
LAUNCHER = os.path.join(os.path.dirname(HERE), 'tfenc')
TFENC = os.path.join(os.path.dirname(HERE), 'crates', 'tfenc', 'out', 'tfenc')
MOST = 16777216

BAD_WORD = 'fof(last,axiom,p & .\n'
TWO_CONJECTURES = 'fof(a,conjecture,p).\nfof(b,conjecture,p).\n'


def typed_lists(size, most=21000):
    """The list problem with so many types, constants and predicates, or as many as fit and then axioms alone."""
    lines = [
        'tff(list,type,list: $tType > $tType).',
        'tff(nil,type,nil: !>[A: $tType]: list(A)).',
        'tff(cons,type,cons: !>[A: $tType]: ((A * list(A)) > list(A))).',
    ]
    length = sum(len(line) + 1 for line in lines)
    i = 0
    while length < size and i < most:
        more = [
            f'tff(t{i},type,t{i}: $tType).',
            f'tff(c{i},type,c{i}: t{i}).',
            f'tff(p{i},type,p{i}: !>[A: $tType]: ((A * list(A)) > $o)).',
            f'tff(a{i},axiom,![A: $tType,X: A,L: list(A)]: (p{i}(A,X,L) => p{i}(A,X,cons(A,X,L)))).',
            f'tff(b{i},axiom,p{i}(t{i},c{i},nil(t{i}))).',
        ]
        lines += more
        length += sum(len(line) + 1 for line in more)
        i += 1
    while most == 21000 and length < size:
        line = f'tff(e,axiom,![A: $tType,X: A,L: list(A)]: (p0(A,X,L) => p1(A,X,cons(A,X,L)))).'
        lines.append(line)
        length += len(line) + 1
    return '\n'.join(lines) + '\n'


def sorted_lists(most, naked):
    """Lists of so many types, each with symbols of its own, and of every second type naked variables, if there are to be any."""
    lines = ['tff(list,type,list: $tType > $tType).']
    for i in range(most):
        lines += [
            f'tff(t{i},type,t{i}: $tType).',
            f'tff(c{i},type,c{i}: t{i}).',
            f'tff(n{i},type,n{i}: list(t{i})).',
            f'tff(k{i},type,k{i}: (t{i} * list(t{i})) > list(t{i})).',
            f'tff(p{i},type,p{i}: (t{i} * list(t{i})) > $o).',
            f'tff(a{i},axiom,![X: t{i},L: list(t{i})]: (p{i}(X,L) => p{i}(X,k{i}(X,L)))).',
            f'tff(b{i},axiom,p{i}(c{i},n{i})).',
        ]
        if naked and i % 2:
            lines.append(f'tff(d{i},axiom,![X: t{i},Y: t{i}]: (X = Y | p{i}(X,n{i}))).')
    return '\n'.join(lines) + '\n'


def scheme_text(scheme, types):
    """A problem with so many types to which the scheme applies."""
    if scheme in ('guards', 'tags', 'guards_cover', 'tags_cover', 'args'):
        return typed_lists(MOST, types)
    return sorted_lists(types, scheme != 'erase')


def axioms(size):
    line = 'fof(monotone,axiom,![X,Y]: (less(X,succ(Y)) => (even(X) | ~ odd(Y,plus(X,Y))))).\n'
    return line * (size // len(line))


PAIRS = ['tff(pair,type,pair: ($tType * $tType) > $tType).', *(f'tff(t{i},type,t{i}: $tType).' for i in range(100))]


def nested_pairs(leaves):
    """A type of nested pairs over the leaves, as flat as can be."""
    while len(leaves) > 1:
        pairs = [f'pair({left},{right})' for left, right in zip(leaves[::2], leaves[1::2])]
        leaves = pairs + leaves[len(leaves) - len(leaves) % 2:]
    return leaves[0]


def mixed_leaves(count, more=()):
    """So many leaves in no order, so that few parts of a type over them are equal."""
    ground = [f't{i}' for i in range(100)]
    return random.Random(count).choices([*ground, *(name for name in more for _ in ground)], k=count)


def filled(lines, line, size):
    """The lines, and then the line as often as it fits."""
    begin = '\n'.join(lines) + '\n'
    return begin + line * max(1, (size - len(begin)) // len(line))


def wide_types(size):
    """A ground type, written at a constant and at a predicate, that is a tenth of the text, and atoms at it."""
    ty = nested_pairs(mixed_leaves(size // 200))
    return filled([*PAIRS, f'tff(c,type,c: {ty}).', f'tff(p,type,p: {ty} > $o).'], 'tff(a,axiom,p(c)).\n', size)


def wide_instances(size):
    """A polymorphic function whose result has about as many leaves as the text has lines, and atoms at instances of it."""
    ty = nested_pairs(mixed_leaves(size // 45, ['A']))
    declared = [f'tff(f,type,f: !>[A: $tType]: {ty}).', f'tff(p,type,p: !>[A: $tType]: ({ty} > $o)).']
    return filled([*PAIRS, *declared], 'tff(a,axiom,p(t0,f(t0))).\n', size)


def deep(size):
    unit = 'fof(d,axiom,' + '~ (' * 150 + 'p(X) & q' + ')' * 150 + ').\n'
    unit = unit.replace('p(X)', 'p')
    return unit * (size // len(unit))


def chain(size):
    return 'fof(c,axiom,' + 'p & ' * (size // 4) + 'p).\n'


def wide(size):
    return 'fof(w,axiom,p(' + 'f(a),' * (size // 5) + 'a)).\n'


def comment(size):
    return '/* ' + 'x ' * (size // 2) + '*/\n'


def spaces(size):
    return ' ' * size


FAMILIES = {
    'reading': {
        'typed lists': typed_lists, 'chain': chain, 'list': wide, 'comment': comment, 'spaces': spaces,
    },
    'typing': {
        'typed lists': typed_lists, 'axioms': axioms, 'wide types': wide_types, 'wide instances': wide_instances,
    },
    'encoding': {'axioms': axioms, 'deep': deep, 'wide': wide},
}
ENDS = {'reading': BAD_WORD, 'typing': TWO_CONJECTURES, 'encoding': ''}
STATUSES = {'reading': 1, 'typing': 1, 'encoding': 0}
MEMORY = {'reading': 64, 'typing': 200, 'encoding': 200}
MOST_OF_WC = {'reading': 25}
SCHEMES = ['guards', 'tags', 'guards_cover', 'tags_cover', 'args', 'erase',
           'guards_light', 'tags_light', 'guards_feather', 'tags_feather']


def measured(words, output=os.devnull):
    """The time in seconds, the peak memory in bytes and the status of a command."""
    with open(output, 'wb') as out, open(os.devnull, 'wb') as null:
        begin = time.perf_counter()
        child = subprocess.Popen(words, stdin=subprocess.DEVNULL, stdout=out, stderr=null)
        _, status, usage = os.wait4(child.pid, 0)
        return time.perf_counter() - begin, usage.ru_maxrss * 1024, os.waitstatus_to_exitcode(status)


def best(words, output=os.devnull, runs=3):
    made = [measured(words, output) for _ in range(runs)]
    return min(run[0] for run in made), max(run[1] for run in made), made[0][2]


def processor_seconds(words, output=os.devnull, runs=1):
    """The least processor time of a command, its own and the system's, and its status."""
    least, status = None, 0
    for _ in range(runs):
        with open(output, 'wb') as out, open(os.devnull, 'wb') as null:
            child = subprocess.Popen(words, stdin=subprocess.DEVNULL, stdout=out, stderr=null)
            _, status, usage = os.wait4(child.pid, 0)
        spent = usage.ru_utime + usage.ru_stime
        least = spent if least is None else min(least, spent)
    return least, os.waitstatus_to_exitcode(status)


def writes(words, output):
    """How many calls of the system write the output of a command, or nothing where strace isn't installed."""
    if not shutil.which('strace'):
        return None
    with tempfile.NamedTemporaryFile('r') as calls, open(output, 'wb') as out:
        subprocess.run(['strace', '-f', '-e', 'trace=write', '-o', calls.name, *words], stdout=out, stderr=subprocess.DEVNULL)
        return sum(' write(1,' in line for line in calls)


def why3_driver():
    """The driver by which why3 writes TPTP, or nothing where why3 isn't installed."""
    if not shutil.which('why3'):
        return None
    folder = subprocess.run(['why3', '--print-datadir'], capture_output=True, text=True).stdout.strip()
    driver = os.path.join(folder, 'drivers', 'eprover.drv')
    return driver if os.path.exists(driver) else None


def guards(options, base, missed):
    """The typed lists by guards, at three numbers of types and as a text of 16 MiB."""
    print(f'{"guards":9} {"types":>12} {"bytes":>10} {"output":>10} {"ns/byte":>9} {"memory/byte":>12} {"why3":>9} {"writes":>8}')
    times, driver = [], why3_driver()
    goal = 'tff(go,conjecture,p0(t0,c0,cons(t0,c0,nil(t0)))).\n'
    for types in (50, 500, 2000, None):
        text = typed_lists(options.most - len(goal) - 200) if types is None else typed_lists(MOST, types)
        text += goal
        with tempfile.TemporaryDirectory() as folder:
            file, output = os.path.join(folder, 'p.p'), os.path.join(folder, 'out')
            with open(file, 'w') as out:
                out.write(text)
            seconds, memory, status = best([TFENC, 'encode', file], output)
            written = os.path.getsize(output)
            peer = ''
            if types is not None and driver:
                words = ['why3', 'prove', '-F', 'tptp', '-D', driver, '-M', 'enco_poly=guards', file]
                theirs, their_status = processor_seconds(words)
                ours, _ = processor_seconds([TFENC, 'encode', file], output, 3)
                peer = f'{theirs / ours:.0f} times' if their_status == 0 else f'status {their_status}'
                if types == 2000 and their_status == 0 and theirs < 30 * ours:
                    missed.append(f'guards {types}: why3 takes {theirs / ours:.1f} times the processor time')
            calls = writes([TFENC, 'encode', file], output)
            if calls is not None and calls > written / 4096 + 100:
                missed.append(f'guards {types}: {calls} writes of {written} bytes')
        room = max(0, memory - base) / len(text)
        per_byte = seconds / max(1, written)
        if types != 50:
            times.append(per_byte)
            if room > 300:
                missed.append(f'guards {types}: {room:.1f} bytes of memory per byte')
        if status != 0:
            missed.append(f'guards {types}: status {status}')
        print(f'{"guards":9} {types or "16 MiB":>12} {len(text):10} {written:10} {per_byte * 1e9:9.1f} {room:12.1f} {peer:>9} {calls or "":>8}')
        sys.stdout.flush()
    if max(times) > 2 * min(times):
        missed.append(f'guards: {max(times) / min(times):.1f} times the least time per byte of output')


def schemes(missed):
    """The typed lists by each scheme, at three numbers of types; for those that take no type variables each type has lists of its own."""
    print(f'{"schemes":9} {"scheme":12} {"types":>10} {"output":>10} {"ns/byte":>9}')
    least = {}
    for scheme in SCHEMES:
        times = []
        for types in (500, 2000, 8000):
            with tempfile.TemporaryDirectory() as folder:
                file, output = os.path.join(folder, 'p.p'), os.path.join(folder, 'out')
                with open(file, 'w') as out:
                    out.write(scheme_text(scheme, types))
                seconds, _, status = best([TFENC, 'encode', file, '--scheme', scheme], output)
                written = os.path.getsize(output)
            times.append(seconds / max(1, written))
            print(f'{"schemes":9} {scheme:12} {types:10} {written:10} {times[-1] * 1e9:9.1f}')
            sys.stdout.flush()
            if status != 0:
                missed.append(f'schemes {scheme} {types}: status {status}')
        least[scheme] = min(times)
        if max(times) > 2 * min(times):
            missed.append(f'schemes {scheme}: {max(times) / min(times):.1f} times the least time per byte of output')
        if least[scheme] > 2 * least['guards']:
            missed.append(f'schemes {scheme}: {least[scheme] / least["guards"]:.1f} times the time of guards per byte of output')


def greatest_table(base, missed):
    """The table with as many entries as there may be is checked for the empty problem."""
    with tempfile.TemporaryDirectory() as folder:
        problem, table = os.path.join(folder, 'p'), os.path.join(folder, 't')
        open(problem, 'w').close()
        with open(table, 'w') as out:
            entries = tables.write_greatest(out)
        seconds, memory, status = best([TFENC, 'check', problem, table], runs=2)
        words, _, _ = best(['wc', '-w', table], runs=2)
    room = max(0, memory - base) / entries
    print(f'{"tables":9} {"greatest":12} {entries:10} {seconds / entries * 1e9:9.1f} {room:12.1f} {seconds / words:12.1f}')
    sys.stdout.flush()
    if status != 0:
        missed.append(f'tables: status {status}')
    if seconds > 12 * words:
        missed.append(f'tables: {seconds / words:.1f} times wc -w')
    if room > 8:
        missed.append(f'tables: {room:.1f} bytes of memory per entry')


def models(base, missed):
    """Models of the list problem at growing sizes, there and back."""
    times = {'lower': [], 'lift': []}
    for members, elements in ((10, 4), (12, 6), (16, 9), (20, 11)):
        text, _ = tables.list_model(members, elements)
        with tempfile.TemporaryDirectory() as folder:
            problem, table, lowered = (os.path.join(folder, name) for name in ('p', 't', 'u'))
            for name, content in ((problem, tables.LIST_PROBLEM), (table, text)):
                with open(name, 'w') as out:
                    out.write(content)
            size = members * (elements + 1)
            entries = size + 2 * size + 2 * size**3 + size**2 + 1
            for action, source, output in (('lower', table, lowered), ('lift', lowered, os.devnull)):
                seconds, memory, status = best([TFENC, action, problem, source], output, runs=2)
                room = max(0, memory - base) / entries
                times[action].append(seconds / entries)
                print(f'{"models":9} {action:12} {entries:10} {seconds / entries * 1e9:9.1f} {room:12.1f}')
                sys.stdout.flush()
                if status != 0:
                    missed.append(f'models {action} {entries}: status {status}')
    if times['lower'][-1] > 3 * times['lift'][-1]:
        missed.append(f'models: lower takes {times["lower"][-1] / times["lift"][-1]:.1f} times the time of lift an entry')
    for action, each in times.items():
        if max(each[1:]) > 2 * min(each[1:]):
            missed.append(f'models {action}: {max(each[1:]) / min(each[1:]):.1f} times the least time per entry')


def main():
    parser = argparse.ArgumentParser(description=__doc__, formatter_class=argparse.RawDescriptionHelpFormatter)
    parser.add_argument('stages', nargs='*', default=[])
    parser.add_argument('--most', type=int, default=MOST)
    options = parser.parse_args()
    missed = []
    # (the launcher builds the program where it is missing or old)
    measured([LAUNCHER])
    base = measured([TFENC])[1]
    print(f'{"stage":9} {"family":14} {"bytes":>10} {"ns/byte":>9} {"memory/byte":>12} {"times wc -w":>12}')
    for stage in options.stages or ['hostile', *FAMILIES, 'guards', 'schemes', 'tables', 'models']:
        if stage == 'guards':
            guards(options, base, missed)
            continue
        if stage == 'schemes':
            schemes(missed)
            continue
        if stage == 'tables':
            greatest_table(base, missed)
            continue
        if stage == 'models':
            models(base, missed)
            continue
        if stage == 'hostile':
            hostile.hostile(TFENC, base, missed)
            continue
        for family, make in FAMILIES[stage].items():
            times = []
            size = min(options.most, MOST) // 32
            while size <= options.most:
                end = ENDS[stage]
                if stage == 'encoding' and family == 'wide' and size > MOST // 4:
                    break
                text = make(size - len(end) - 200) + end
                with tempfile.NamedTemporaryFile('w', suffix='.p') as file:
                    file.write(text)
                    file.flush()
                    seconds, memory, status = best([TFENC, 'encode', file.name, '--scheme', 'erase'])
                    words, _, _ = best(['wc', '-w', file.name])
                if status != STATUSES[stage]:
                    missed.append(f'{stage} {family} {len(text)}: status {status}')
                per_byte = seconds / len(text)
                room = max(0, memory - base) / len(text)
                if len(text) >= 1 << 20:
                    times.append(per_byte)
                    if MEMORY[stage] and room > MEMORY[stage]:
                        missed.append(f'{stage} {family} {len(text)}: {room:.1f} bytes of memory per byte')
                    if stage in MOST_OF_WC and seconds > MOST_OF_WC[stage] * words:
                        missed.append(f'{stage} {family} {len(text)}: {seconds / words:.1f} times wc -w')
                print(f'{stage:9} {family:14} {len(text):10} {per_byte * 1e9:9.1f} {room:12.1f} {seconds / words:12.1f}')
                sys.stdout.flush()
                size *= 2
            if times and max(times) > 2 * min(times):
                missed.append(f'{stage} {family}: {max(times) / min(times):.1f} times the least time per byte')
    print('missed: ' + ('; '.join(missed) if missed else 'none'))


main()

"""Inputs of a few lines that would take a direct evaluation without end, each at two sizes."""
import os
import subprocess
import sys
import tempfile
import time

# The seconds that each input may take, unless the time grows no faster than the input and its output.
MOST_SECONDS = 5
# The seconds after which a run is given up.
PATIENCE = 60

PAIR = 'tff(pair,type,pair: ($tType * $tType) > $tType).\n'
LIST = 'tff(list,type,list: $tType > $tType).\n'


def table(sizes, types, symbols):
    """A typed table with these sizes, and for each name its entries."""
    lines = ['typed 1.', 'sizes ' + ' '.join(map(str, sizes)) + '.']
    lines += [f'type {name} = ' + ' '.join(map(str, entries)) + '.' for name, entries in types]
    lines += [f'symbol {name} = ' + ' '.join(map(str, entries)) + '.' for name, entries in symbols]
    return '\n'.join(lines) + '\n'


def nested_pair(names):
    return names[0] if len(names) == 1 else f'pair({names[0]},{nested_pair(names[1:])})'


def many_parameters(count):
    """A predicate whose one argument type has so many parameters, over two members: its entries are counted."""
    names = [f'A{i}' for i in range(count)]
    problem = PAIR + f'tff(q,type,q: !>[{",".join(f"{it}: $tType" for it in names)}]: ({nested_pair(names)} > $o)).\n'
    return 'check', problem, table([1, 1], [('$i', [0]), ('pair', [0] * 4)], []), 5


def many_members(count):
    """A predicate over a type of three parameters, and so many members: its entries are counted."""
    problem = PAIR + 'tff(q,type,q: !>[A: $tType,B: $tType,C: $tType]: (pair(A,pair(B,C)) > $o)).\n'
    entries = [(i + j) % count for i in range(count) for j in range(count)]
    return 'check', problem, table([1] * count, [('$i', [0]), ('pair', entries)], []), 5


def many_blocks(count):
    """A polymorphic constant over so many members: each of its blocks is looked up."""
    problem = LIST + 'tff(nil,type,nil: !>[A: $tType]: list(A)).\ntff(x,axiom,![A: $tType]: nil(A) = nil(A)).\n'
    zeros = [0] * count
    return 'check', problem, table([1] * count, [('$i', [0]), ('list', zeros)], [('nil', zeros)]), 0


def idle_type_variables(count):
    """So many type variables that don't occur in their formula, over two members."""
    names = ','.join(f'A{i}: $tType' for i in range(count))
    problem = f'tff(p,type,p: $o).\ntff(x,axiom,![{names}]: p).\n'
    return 'check', problem, table([1, 1], [('$i', [0])], [('p', [1])]), 0


def wide_blocks(count):
    """A predicate of two parameters and so many arguments, over a hundred members: its ranges are tested."""
    problem = f'tff(q,type,q: !>[A: $tType,B: $tType]: (({" * ".join(["A"] * count)}) > $o)).\n'
    return 'check', problem, table([1] * 100, [('$i', [0])], [('q', [1] * 10000)]), 0


def guarded_variables(count):
    """So many nested variables, whose guard holds of one element of sixty."""
    size = 60
    names = [f'X{i}' for i in range(count)]
    problem = ('tff(t,type,t: $tType).\ntff(p,type,p: t > $o).\n'
               + f'tff(x,axiom,![{",".join(f"{it}: t" for it in names)}]: ({" & ".join(f"p({it})" for it in names)})).\n')
    guards = ' '.join((['1'] + ['0'] * (size - 1)) * size)
    model = (f'untyped 1.\nsize {size}.\npredicate p = {" ".join(["1"] * size)}.\nfunction t = 1.\n'
             + f'predicate is = {guards}.\n')
    return 'lift', problem, model, 0


def deep_types(count):
    """A predicate of so many arguments of a type that nests deeply, over one member of one element: it is lowered."""
    deep = 'c(' * 390 + '$i' + ')' * 390
    problem = ('tff(c,type,c: $tType > $tType).\n' + f'tff(p,type,p: ({" * ".join([deep] * count)}) > $o).\n'
               + f'tff(k,type,k: {deep}).\ntff(x,axiom,p({",".join(["k"] * count)})).\n')
    return 'lower', problem, table([1], [('$i', [0]), ('c', [0])], [('p', [1]), ('k', [0])]), 0


FAMILIES = {
    'many parameters': (many_parameters, 30, 60),
    'many members': (many_members, 500, 1000),
    'many blocks': (many_blocks, 100_000, 1_000_000),
    'idle type variables': (idle_type_variables, 30, 60),
    'wide blocks': (wide_blocks, 5_000, 50_000),
    'guarded variables': (guarded_variables, 3, 6),
    'deep types': (deep_types, 15, 17),
}


def run(words, output):
    """The processor seconds, the peak memory and the status of a command, or nothing where it is given up."""
    with open(output, 'wb') as out, open(os.devnull, 'wb') as null:
        child = subprocess.Popen(words, stdin=subprocess.DEVNULL, stdout=out, stderr=null)
        end = time.time() + PATIENCE
        while time.time() < end:
            pid, status, usage = os.wait4(child.pid, os.WNOHANG)
            if pid:
                return usage.ru_utime + usage.ru_stime, usage.ru_maxrss * 1024, os.waitstatus_to_exitcode(status)
            time.sleep(0.01)
        child.kill()
        os.wait4(child.pid, 0)
        return None


def made(family, size, folder):
    """Writes the problem and the table, in a process of its own: what a process holds counts for those that it starts."""
    subprocess.run([sys.executable, os.path.abspath(__file__), family, str(size), folder], check=True)


def write(family, size, folder):
    _, problem, given, _ = FAMILIES[family][0](size)
    for name, text in (('p', problem), ('t', given)):
        with open(os.path.join(folder, name), 'w') as out:
            out.write(text)


def hostile(program, base, missed):
    """Runs each family at its two sizes, and tells the seconds, the bytes of memory and what is missed."""
    print(f'{"hostile":9} {"family":20} {"size":>9} {"bytes":>10} {"output":>10} {"seconds":>9} {"memory":>12}')
    for family, (make, *sizes) in FAMILIES.items():
        action, _, _, wanted = make(2)
        rates = []
        for size in sizes:
            with tempfile.TemporaryDirectory() as folder:
                made(family, size, folder)
                files = [os.path.join(folder, name) for name in ('p', 't', 'out')]
                told = run([program, action, *files[:2]], files[2])
                length, written = sum(os.path.getsize(it) for it in files[:2]), os.path.getsize(files[2])
            if told is None:
                print(f'{"hostile":9} {family:20} {size:9} {length:10} {written:10} {"no end":>9}')
                missed.append(f'hostile {family} {size}: no end within {PATIENCE} seconds')
                continue
            seconds, memory, status = told
            rates.append(seconds / (length + written))
            print(f'{"hostile":9} {family:20} {size:9} {length:10} {written:10} {seconds:9.2f} {max(0, memory - base):12}')
            sys.stdout.flush()
            if status != wanted:
                missed.append(f'hostile {family} {size}: status {status}')
            if seconds > MOST_SECONDS and (len(rates) < 2 or rates[-1] > 2 * rates[0]):
                missed.append(f'hostile {family} {size}: {seconds:.1f} seconds')


if __name__ == '__main__':
    write(sys.argv[1], int(sys.argv[2]), sys.argv[3])

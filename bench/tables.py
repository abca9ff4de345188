"""Tables for measurements: one with as many entries as there may be, and models of the list problem."""

MOST_ENTRIES = 67108864

LIST_PROBLEM = """tff(list,type,list: $tType > $tType).
tff(nil,type,nil: !>[A: $tType]: list(A)).
tff(cons,type,cons: !>[A: $tType]: ((A * list(A)) > list(A))).
tff(holds,type,holds: !>[A: $tType]: ((A * list(A)) > $o)).
tff(grows,axiom,![A: $tType,X: A,L: list(A)]: (holds(A,X,L) => holds(A,X,cons(A,X,L)))).
"""


def write_greatest(file):
    """The table of the empty problem with 67,108,862 members of one element: as many entries as there may be but one."""
    members = MOST_ENTRIES - 2
    file.write('typed 1.\nsizes')
    chunk = ' 1' * 65536
    for _ in range(members // 65536):
        file.write(chunk)
    file.write(' 1' * (members % 65536))
    file.write('.\ntype $i = 0.\n')
    return members + 1


def list_model(members, elements):
    """A model of the list problem: so many members with so many elements each, and its number of entries. The lists over
    each member are the elements of the next one."""
    block = elements * elements
    lines = [
        'typed 1.',
        'sizes' + f' {elements}' * members + '.',
        'type $i = 0.',
        'type list =' + ''.join(f' {(m + 1) % members}' for m in range(members)) + '.',
        'symbol nil =' + ' 0' * members + '.',
        'symbol cons =' + ''.join(f' {(x + l) % elements}' for x in range(elements) for l in range(elements)) * members + '.',
        'symbol holds =' + ' 1' * (block * members) + '.',
    ]
    entries = members * elements + 1 + 2 * members + 2 * block * members
    return '\n'.join(lines) + '\n', entries

% A polymorphic option type: each element stands in some option.
tff(option,type,option: $tType > $tType).
tff(none,type,none: !>[A: $tType]: option(A)).
tff(some,type,some: !>[A: $tType]: (A > option(A))).
tff(has,type,has: !>[A: $tType]: ((option(A) * A) > $o)).
tff(cases,axiom,![A: $tType,O: option(A)]: (O = none(A) | ?[X: A]: O = some(A,X))).
tff(differ,axiom,![A: $tType,X: A]: none(A) != some(A,X)).
tff(has_is,axiom,![A: $tType,X: A,Y: A]: (has(A,some(A,X),Y) <=> X = Y)).
tff(goal,conjecture,![A: $tType,X: A]: ?[O: option(A)]: has(A,O,X)).

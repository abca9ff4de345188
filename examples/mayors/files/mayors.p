% A database constraint: where everybody lives in one city and mayors in theirs, mayors differ.
tff(person,type,person: $tType).
tff(city,type,city: $tType).
tff(lives,type,lives: (person * city) > $o).
tff(mayor,type,mayor: city > person).
tff(some_city,axiom,![P: person]: ?[C: city]: lives(P,C)).
tff(one_city,axiom,![P: person,C: city,D: city]: ((lives(P,C) & lives(P,D)) => C = D)).
tff(mayors_live_there,axiom,![C: city]: lives(mayor(C),C)).
tff(mayors_differ,conjecture,![C: city,D: city]: (mayor(C) = mayor(D) => C = D)).

fof(one,axiom,![X,Y]: X = Y).

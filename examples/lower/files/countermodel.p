% A type of one element beside a type of two: without its types the conjecture would be provable.
tff(token,type,token: $tType).
tff(bit,type,bit: $tType).
tff(zero,type,zero: bit).
tff(one,type,one: bit).
tff(one_token,axiom,![X: token,Y: token]: X = Y).
tff(goal,conjecture,zero = one).

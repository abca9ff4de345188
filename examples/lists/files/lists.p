% Lists over any type: appending the empty list to a list of one element changes nothing.
tff(list,type,list: $tType > $tType).
tff(nil,type,nil: !>[A: $tType]: list(A)).
tff(cons,type,cons: !>[A: $tType]: ((A * list(A)) > list(A))).
tff(append,type,append: !>[A: $tType]: ((list(A) * list(A)) > list(A))).
tff(append_nil,axiom,![A: $tType,L: list(A)]: append(A,nil(A),L) = L).
tff(append_cons,axiom,(
    ! [A: $tType,X: A,K: list(A),L: list(A)] :
      append(A,cons(A,X,K),L) = cons(A,X,append(A,K,L)) ),
    file('lists.thy',append_cons)).
tff(goal,conjecture,
    ! [A: $tType,X: A] : append(A,cons(A,X,nil(A)),nil(A)) = cons(A,X,nil(A)) ).

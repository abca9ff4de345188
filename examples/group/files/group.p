% Groups: that each is commutative is false, and the smallest countermodel has six elements.
tff(group,type,group: $tType).
tff(unit,type,unit: group).
tff(inverse,type,inverse: group > group).
tff(times,type,times: (group * group) > group).
tff(left_unit,axiom,![X: group]: times(unit,X) = X).
tff(left_inverse,axiom,![X: group]: times(inverse(X),X) = unit).
tff(associative,axiom,![X: group,Y: group,Z: group]: times(times(X,Y),Z) = times(X,times(Y,Z))).
tff(commutative,conjecture,![X: group,Y: group]: times(X,Y) = times(Y,X)).

typed 1.
sizes 1 1 2.
type $i = 0.
type token = 1.
type bit = 2.
symbol zero = 0.
symbol one = 1.

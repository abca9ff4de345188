untyped 1.
size 7.
function zero = 5.
function one = 6.
function token = 1.
function bit = 2.
predicate is = 0 0 0 1 0 0 0 0 0 0 0 1 0 0 0 0 0 0 0 1 1 0 0 0 1 0 0 0 0 0 0 0 1 0 0 0 0 0 0 0 1 1 0 0 0 0 0 1 1.

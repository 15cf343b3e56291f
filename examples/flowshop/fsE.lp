% The flow shop with difference constraints: Listing 40, with the theory of Listing 35 before it. There &diff has a place
% as an argument, which a Python program puts in; here it has none, as the rules are written.
#theory dl {
  diff_term {
    - : 3, unary;
    ** : 2, binary, right;
    * : 1, binary, left;
    / : 1, binary, left;
    \ : 1, binary, left;
    + : 0, binary, left;
    - : 0, binary, left
  };
  &diff/0 : diff_term, {<=}, diff_term, any
}.

1 { cycle(T,U): task(U), U!=T } 1 :- task(T).
1 { cycle(T,U): task(T), U!=T } 1 :- task(U).
reach(M) :- M = #min { T: task(T) }.
reach(U) :- reach(T), cycle(T,U).
:- task(T), not reach(T).

1 { start(T): task(T) } 1.
permutation(T,U) :- cycle(T,U), not start(U).

seq((T,M),(T,M+1),D) :- task(T), duration(T,M,D), machine(M+1).
seq((T1,M),(T2,M),D) :- permutation(T1,T2), duration(T1,M,D).

&diff { T1-T2 } <= -D :- seq(T1,T2,D).
&diff { 0-(T,M) } <= 0 :- duration(T,M,D).

#show permutation/2.

% A larger network, by facts that are added to those of network.lp: n more units, each with lines to three of n/3 more
% concentrators. `gringo large.lp network.lp` writes almost 60,000 bytes.
#const n = 49.
unit(pmu(1..n)).
gathers(pdc(0..n/3-1),4).
travels(pmu(I),pdc(J),10+(7*I+3*J)\25) :- I = 1..n, J = ((I;I+1;I+5)\(n/3)).

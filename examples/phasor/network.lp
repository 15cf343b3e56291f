% A phasor measurement network: which concentrator gathers which units, and when each stage opens and closes.
% Times are in milliseconds. &diff{ x-y } <= k says that x is at most k after y; with k below 0, y is at least -k after x.
#theory differences {
  time { - : 1, unary; - : 0, binary, left };
  &diff/0 : time, {<=}, time, head
}.

% Four units measure; two concentrators gather, each at most two units.
unit(pmu1; pmu2; pmu3; pmu4).
gathers(east,2; west,2).

% How long a packet travels from a unit to a concentrator. The line from pmu4 to west is too slow for the wait window.
travels(pmu1,east,12; pmu1,west,25; pmu2,east,18; pmu2,west,15; pmu3,east,30; pmu3,west,11; pmu4,east,20; pmu4,west,44).

% Each unit reports to one concentrator. This is what the solver chooses.
1 { reports(U,C) : travels(U,C,_) } 1 :- unit(U).
:- gathers(C,Most), Most+1 { reports(U,C) : unit(U) }.

% A packet is sent when the stage of its concentrator is open, travels, and is received before that stage closes.
&diff { open(C)-send(U) } <= 0 :- reports(U,C).
&diff { send(U)-recv(U) } <= -D :- reports(U,C), travels(U,C,D).
&diff { recv(U)-close(C) } <= 0 :- reports(U,C).

% The wait window: a stage closes at most 40 ms after it opens.
&diff { close(C)-open(C) } <= 40 :- gathers(C,_).

% West opens at least 10 ms after east. The control room opens when both have closed, 5 ms for the way to it.
&diff { open(east)-open(west) } <= -10.
&diff { close(C)-open(control) } <= -5 :- gathers(C,_).

% Nothing is before the time 0.
&diff { 0-open(C) } <= 0 :- gathers(C,_).

#show reports/2.

% Which streams a concentrator hears: two or three, no more frames a second than it takes in, and one spare for many.
#theory differences {
  time { - : 1, unary; - : 0, binary, left };
  &diff/0 : time, {<=}, time, head
}.

% The frames a second of each unit's stream.
stream(pmu1,50; pmu2,25; pmu3,50; pmu4,10; pmu5,25).

% Two or three are heard, together at least 60 and at most 110 frames a second.
2 { heard(U) : stream(U,_) } 3.
:- not 60 #sum { F,U : heard(U), stream(U,F) } 110.

% A spare concentrator stands by where three are heard, or those heard have 100 frames a second or more.
spare :- 3 { heard(U) : stream(U,_) }.
spare :- #sum { F,U : heard(U), stream(U,F) } >= 100.

% A packet travels 10 ms at least and is waited for 40 ms; with a spare it is copied 5 ms after it was received.
&diff { send(U)-recv(U) } <= -10 :- heard(U).
&diff { recv(U)-send(U) } <= 40 :- heard(U).
&diff { recv(U)-copy } <= -5 :- heard(U), spare.

#show heard/1.
#show spare/0.

% Two slips that a grounder lets pass: it does not evaluate what stands in a difference.
#theory differences {
  time { - : 1, unary; - : 0, binary, left };
  &diff/0 : time, {<=}, time, head
}.
stage(1..2).

% Each stage is open for 20 ms at least.
&diff { open(S)-close(S) } <= -20 :- stage(S).

% Meant: a stage opens 5 ms after the one before it has closed. close(S-1) becomes close(2-1), a clock of its own.
% Right: &diff { close(P)-open(S) } <= -5 :- stage(S), P = S-1, stage(P).
&diff { close(S-1)-open(S) } <= -5 :- stage(S), S > 1.

% Meant: the first stage opens 3 ms after the time 0. The number 3 becomes a clock of its own.
% Right: &diff { 0-open(1) } <= -3.
&diff { 3-open(1) } <= 0.

#show stage/1.

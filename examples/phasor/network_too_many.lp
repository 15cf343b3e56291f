% The network of network.lp with one rule too many: two units that report to the same concentrator send 30 ms apart.
#include "network.lp".
&diff { send(U)-send(V) } <= -30 :- reports(U,C), reports(V,C), U < V.

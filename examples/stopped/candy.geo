% Candy's theorem (Albert Luther Candy, 1896): two chords AB and CD of a circle pass through a point M of a third
% chord PQ; AD and BC meet PQ at X and Y. Then 1/MX + 1/MY = 1/MP + 1/MQ, with signs. (Where M is the midpoint of PQ,
% this is the butterfly theorem.) The figure begins with M, P and A; MQ is q times MP, C is the second point of the
% line from A through a point K of PQ, by the power of K, and B and D are found by the power of M.
point M
point P
param q
lratio Q M P q
point A
online K M P
lratio C K A div { pythagoras_difference3 P K Q } { pythagoras_difference3 K A K }
lratio B M A div { pythagoras_difference3 P M Q } { pythagoras_difference3 M A M }
lratio D M C div { pythagoras_difference3 P M Q } { pythagoras_difference3 M C M }
inter X A D M P
inter Y B C M P
prove { equal { sum { sratio M P M X } { sratio M P M Y } } { sum { 1 } { sratio M P M Q } } }

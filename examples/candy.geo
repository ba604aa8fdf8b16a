% Candy's theorem (Albert Luther Candy, 1896): two chords AB and CD of a circle pass through a point M of a third
% chord PQ; AD and BC meet PQ at X and Y. Then 1/MX + 1/MY = 1/MP + 1/MQ, with signs. (Where M is the midpoint of PQ,
% this is the butterfly theorem.) The figure begins with M, P and A. MQ and MX are q and x times MP; B, D and C are
% found by the powers of M and X, and Y is the point of PQ that satisfies the equation. Here: it is on BC.
point M
point P
param q
lratio Q M P q
point A
lratio B M A div { pythagoras_difference3 P M Q } { pythagoras_difference3 M A M }
param x
lratio X M P x
lratio D X A div { pythagoras_difference3 P X Q } { pythagoras_difference3 X A X }
lratio C M D div { pythagoras_difference3 P M Q } { pythagoras_difference3 M D M }
lratio Y M P div { 1 } { sub { sum { 1 } { div { 1 } { q } } } { div { 1 } { x } } }
prove { collinear B C Y }

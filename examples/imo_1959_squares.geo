% Two squares on a segment (International Mathematical Olympiad 1959, problem 5): on the parts AM and MB of a segment
% stand squares AMCD and MBEF on the same side. The lines AF and BC meet at N, and the line MN goes through one point
% wherever M is on AB: the point that makes an isosceles right triangle with AB, on the other side.
point A
point B
online M A B
tratio C M A -1
tratio F M B 1
inter N A F B C
midpoint K A B
tratio Z K B -1
prove { collinear M N Z }

% The Finsler-Hadwiger theorem (Paul Finsler and Hugo Hadwiger, 1937): two squares share the corner A; their centres
% and the midpoints of BR and DP are the corners of a square. Here: its corner at M.
point A
point B
point P
tratio D A B 1 % a square on AB with the corner D
tratio R A P 1 % a square on AP with the corner R
midpoint U B D
midpoint V P R
midpoint M B R
tratio W M U 1
prove { identical V W }

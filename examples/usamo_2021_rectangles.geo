% Three rectangles on the sides (United States of America Mathematical Olympiad 2021, problem 1): rectangles BCC1B2,
% CAA1C2 and ABB1A2 stand outside on the sides of a triangle, and the angles BC1C, CA1A and AB1B add up to two right
% angles. The lines B1C2, C1A2 and A1B2 meet in one point. The heights are u, v and w times the sides; the cotangents
% of the angles are u, v and w, so uv + vw + wu = 1.
point A
point B
point C
param u
param v
tratio B2 B C neg { u }
translate C1 B B2 C
tratio C2 C A neg { v }
translate A1 C C2 A
tratio A2 A B div { neg { sub { 1 } { mult { u } { v } } } } { sum { u } { v } }
translate B1 A A2 B
inter X B1 C2 C1 A2
prove { collinear A1 B2 X }

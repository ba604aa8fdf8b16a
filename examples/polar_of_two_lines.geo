% The polar of a point for two lines (Philippe de La Hire, 1685): two lines through S are cut by the secants through a
% point P, and on each secant the fourth harmonic point of P and the two intersections is taken. These points are on
% one line through S. The first secant meets the lines at A and B, with PB = r PA, and Q is the fourth point; the line
% SQ meets the second secant at its fourth point Q1.
point S
point P
point A
param r
lratio B P A r
lratio Q P A div { mult { 2 } { r } } { sum { 1 } { r } }
online A1 S A
inter B1 P A1 S B
inter Q1 P A1 S Q
prove { harmonic A1 B1 P Q1 }

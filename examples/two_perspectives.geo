% Two triangles ABC and DEF that are in perspective as ABC, DEF and as ABC, EFD are so as ABC, FDE too (Jakob Rosanes,
% 1870; equivalent to Pappus' theorem). S and T are the centres of the first two ways.
point A
point B
point C
point S
point T
inter D A S C T
inter E B S A T
inter F C S B T
inter U A F B D
prove { collinear C E U }

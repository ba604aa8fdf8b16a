% Each point of the bisector of an angle has the same distance from its two sides (Euclid, Elements IV.4). V and W are
% at equal distances from A on the sides.
point A
point U
param r
tratio V U A r
symmetric W V U
line b A V
line c A W
online P A U
perp p P b
perp q P c
intersec X b p
intersec Y c q
prove { same_length P X P Y }

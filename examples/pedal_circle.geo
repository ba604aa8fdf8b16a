% The feet of a point P and of its isogonal conjugate Q on the sides of a triangle are on one circle (Jakob Steiner,
% 1827). Here for two sides AV and AW, in the form that AK AM = AL AN: the lines AP and AQ are reflections of one
% another in the bisector AU.
point A
point U
param r
tratio V U A r
symmetric W V U
param s
tratio S U A s
symmetric T S U
online P A S
online Q A T
foot K P A V
foot L P A W
foot M Q A V
foot N Q A W
prove { equal { pythagoras_difference3 K A M } { pythagoras_difference3 L A N } }

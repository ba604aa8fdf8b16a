% The midpoint C of AB has no fourth harmonic point: the line PS of the quadrangle that should make it is parallel to
% AB. Impossible.
point A
point B
midpoint C A B
point P
online Q A P
inter R C Q B P
inter S B Q A R
inter D P S A B
prove { harmonic A B C D }

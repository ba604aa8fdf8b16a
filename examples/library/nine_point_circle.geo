% The nine-point circle (Brianchon and Poncelet, 1821; Feuerbach, 1822): the midpoints of the sides and the foot of
% an altitude are on one circle.
point A
point B
point C
midpoint D B C
midpoint E C A
midpoint F A B
foot H A B C
prove { concyclic D E F H }

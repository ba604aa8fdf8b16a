% The orthocenter divides the altitudes AD and BE of a triangle into parts with equal products: AH HD = BH HE
% (classical). The sides BC and AC are perpendicular to AH and BH.
point A
point B
point H
tratio U A H 1
translate V A U B
inter D A H B V
tratio W B H 1
translate Z B W A
inter E B H A Z
prove { equal { pythagoras_difference3 A H D } { pythagoras_difference3 B H E } }

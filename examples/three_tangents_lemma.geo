% The line from the midpoint M of the side BC to the foot E of an altitude is a tangent of the circle over AH, where H
% is the orthocenter (classical; in competitions the lemma of the three tangents): it is perpendicular to EN, with the
% midpoint N of AH.
point A
point B
point C
foot E B C A
orthocenter H A B C
midpoint M B C
midpoint N A H
prove { perpendicular M E E N }

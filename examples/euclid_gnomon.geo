% The gnomon (Euclid, Elements I.43): through a point of the diagonal of a parallelogram lines are drawn parallel to the
% sides; the two parallelograms beside the diagonal have equal areas.
point A
point B
point D
translate C A B D
online P A C
pratio Q P A B 1
pratio R P A D 1
inter S P Q A D
inter T P Q B C
inter U P R A B
inter V P R C D
prove { equal { signed_area3 U B P } { signed_area3 S P D } }

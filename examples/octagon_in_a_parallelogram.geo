% Each corner of a parallelogram is joined with the midpoints of the two sides that do not pass through it. The eight
% lines make an octagon of one sixth of the area (classical). Five neighbouring corners of it are P, Q, R, S and V;
% the centre M of the parallelogram is its centre, so half of it is MPQ, MQR, MRS and MSV.
point A
point B
point D
translate C A B D
midpoint K A B
midpoint L B C
midpoint N C D
midpoint T D A
midpoint M A C
inter P A L B T
inter Q A L C K
inter R B N C K
inter S B N D L
inter V C T D L
prove { equal { mult { 12 }
                     { sum { sum { sum { signed_area3 M P Q } { signed_area3 M Q R } } { signed_area3 M R S } }
                           { signed_area3 M S V } } }
              { sum { signed_area3 A B C } { signed_area3 A C D } } }

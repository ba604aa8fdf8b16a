% Blanchet's theorem: P is a point of the altitude AD; BP meets CA at E and CP meets AB at F. The altitude bisects the
% angle EDF (classical): the tangents of the angles of DE and DF with it are opposite.
point D
point B
param r
tratio A D B r
online C D B
online P A D
inter E C A B P
inter F A B C P
prove { equal { mult { signed_area3 D A E } { pythagoras_difference3 A D F } }
              { mult { neg { signed_area3 D A F } } { pythagoras_difference3 A D E } } }

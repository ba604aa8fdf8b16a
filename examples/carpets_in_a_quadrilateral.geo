% M and N are the midpoints of the sides BC and DA of a quadrilateral. AM and BN meet at P, and CN and DM at Q. The
% quadrilateral PMQN has the sum of the areas of the triangles ABP and CDQ (classical).
point A
point B
point C
point D
midpoint M B C
midpoint N D A
inter P A M B N
inter Q C N D M
prove { equal { sum { signed_area3 P M Q } { signed_area3 P Q N } }
              { sum { signed_area3 A B P } { signed_area3 C D Q } } }

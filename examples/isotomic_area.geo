% Two triangles whose corners on each side of a third one have the same distance from the midpoint of the side have
% the same area (classical).
point A
point B
point C
online D B C
online E C A
online F A B
translate X D B C
translate Y E C A
translate Z F A B
prove { equal { signed_area3 D E F } { signed_area3 X Y Z } }

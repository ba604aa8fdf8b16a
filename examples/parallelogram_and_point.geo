% The triangles from a point to two opposite sides of a parallelogram have together half of its area (classical).
point A
point B
point C
point P
translate D B C A
prove { equal { sum { signed_area3 P A B } { signed_area3 P C D } } { signed_area3 A B C } }

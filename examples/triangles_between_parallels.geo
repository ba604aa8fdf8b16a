% Triangles on the same base between the same parallels have the same area (Euclid, Elements I.37).
point A
point B
point C
line b A B
parallel p C b
point U
point V
line u U V
intersec D p u
prove { equal { signed_area3 A B C } { signed_area3 A B D } }

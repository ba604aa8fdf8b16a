% proved: the triangle XCA has the area of ABC, r times
point A
point B
point C
param r
param s
weights X A B C r s
prove { equal { signed_area3 X C A } { mult { r } { signed_area3 A B C } } }

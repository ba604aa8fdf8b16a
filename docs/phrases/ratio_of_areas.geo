% proved: a median halves the area
point A
point B
point C
midpoint M B C
prove { equal { mult { 2 } { signed_area3 A B M } } { signed_area3 A B C } }

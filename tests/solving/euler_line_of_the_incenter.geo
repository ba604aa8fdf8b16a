% The incenter is on the Euler line: false, but for isosceles triangles.
point I
point B
point C
reflect C1 C B I
reflect B1 B C I
inter A B C1 C B1
orthocenter H A B C
centroid G A B C
prove { collinear H G I }

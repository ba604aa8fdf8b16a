% Two perpendiculars to one line do not meet (Euclid, Elements I.28). Impossible.
point A
point B
tratio P A B 1
tratio Q B A 1
inter X A P B Q
prove { collinear A P X }

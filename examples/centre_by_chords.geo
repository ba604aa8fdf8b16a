% The perpendicular bisectors of two chords of a circle meet in its centre (Euclid, Elements III.1 and III.25).
point O
point A
oncircle B O A
oncircle C O A
med a A B
med b B C
intersec X a b
prove { identical X O }

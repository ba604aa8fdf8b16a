% D and E are any points of the sides BC and CA of a triangle. The orthocenter H has the same power for the circles
% with the diameters AD and BE (classical): HA HD and HB HE are equal as products of vectors.
point A
point B
point C
orthocenter H A B C
online D B C
online E C A
prove { equal { pythagoras_difference3 A H D } { pythagoras_difference3 B H E } }

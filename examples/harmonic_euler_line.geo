% Centroid G and orthocenter H divide the segment from the circumcenter O to the centre N of the nine-point circle
% harmonically (19th century). H is made by vectors from O, and N is the midpoint of OH.
point O
point A
oncircle B O A
oncircle C O A
centroid G A B C
translate K O A B
translate H O K C
midpoint N O H
prove { harmonic O N G H }

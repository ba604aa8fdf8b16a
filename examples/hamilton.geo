% The triangles ABC, HBC, HCA and HAB of a triangle and its orthocenter have the same nine-point circle (William Rowan
% Hamilton, 1861): the midpoint of AH is as far from the centre N as that of BC; A, B, C on a circle around O, H by
% vectors.
point O
point A
oncircle B O A
oncircle C O A
translate K O A B
translate H O K C
midpoint N O H
midpoint X A H
midpoint Y B C
prove { same_length N X N Y }

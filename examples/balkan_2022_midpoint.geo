% A line through the midpoint of a side (Balkan Mathematical Olympiad 2022, problem 1): the tangents of the
% circumcircle of a triangle at A and B meet at X; Y is the foot of the perpendicular from the centre O to CX. The
% parallel to AB through C meets the tangent at A in Z. The line YZ passes through the midpoint of AC. X is the
% inverse of the midpoint of AB.
point O
point A
oncircle B O A
oncircle C O A
midpoint K A B
inverse X K O A
foot Y O C X
translate T A B C
inter Z C T A X
midpoint M A C
prove { collinear Y Z M }

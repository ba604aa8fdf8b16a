% The theorem of Seydewitz and Staudt for a circle (Karl Georg Christian von Staudt, 1847): T is the pole of the side
% BC of an inscribed triangle. Each line through T meets AB and AC in two conjugate points P and Q: their vectors from
% the centre have the square of the radius as their product.
point O
point A
oncircle B O A
oncircle C O A
midpoint M B C
inverse T M O A
online P A B
inter Q T P A C
prove { equal { pythagoras_difference3 P O Q } { pythagoras_difference3 O A O } }

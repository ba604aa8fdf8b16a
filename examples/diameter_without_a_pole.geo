% The tangents at the ends of a chord AB meet in the inverse of its midpoint, the pole of AB. A diameter has no pole,
% for its midpoint is the centre, which has no inverse. Impossible.
point O
point A
symmetric B A O
midpoint M A B
inverse T M O A
prove { perpendicular T A A O }

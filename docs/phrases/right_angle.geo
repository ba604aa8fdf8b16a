% proved: an angle over a diameter is right
point O
point A
symmetric B A O
oncircle C O A
prove { perpendicular A C C B }

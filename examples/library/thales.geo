% Thales' theorem (Thales of Miletus, 6th century BC): the angle in a half-circle is right.
point O
point A
symmetric B A O
oncircle X O A
prove { perpendicular A X X B }

% The circles with the sides AB and AC of a triangle as diameters meet again on the third side (classical).
point A
point B
point C
midpoint M A B
midpoint N A C
cc D M N A
prove { collinear B C D }

% proved: an angle over the diameter AD is right; the triangle ABC is made from its circle
point O
point A
oncircle B O A
oncircle C O A
symmetric D A O
prove { perpendicular A B B D }

% proved: PA is perpendicular to the radius OA; PB is the other tangent
point O
point A
oncircle B O A
midpoint M A B
inverse P M O A
prove { perpendicular P A A O }

% proved: the circumcenter is equally far from A and B
point A
point B
point C
circumcenter P A B C
midpoint M A B
prove { perpendicular P M A B }

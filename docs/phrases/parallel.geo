% proved: the midline of a triangle is parallel to the base
point A
point B
point C
midpoint M A B
midpoint N A C
prove { parallel M N B C }

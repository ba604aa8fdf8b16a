% proved: opposite sides of a parallelogram are parallel
point A
point B
point C
translate D B A C
prove { parallel A D B C }

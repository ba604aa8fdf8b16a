point A
point B
point C
prove { collinear A B C }

point A
point B
prove { collinear A B C }

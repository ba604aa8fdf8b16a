point A
prove { collinear A A A }

point A
point B
prove { collinear A A B }

point A
point B
pratio M A A B 1
prove { collinear A M B }

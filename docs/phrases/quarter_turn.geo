% proved: a quarter turn around O takes AB to a perpendicular segment of the same length
point O
point A
point B
tratio A1 O A 1
tratio B1 O B 1
prove { perpendicular A B A1 B1 }

% Two points and their inverses are on one circle (19th century).
point O
point R
point A
point B
inverse A1 A O R
inverse B1 B O R
prove { concyclic A B A1 B1 }

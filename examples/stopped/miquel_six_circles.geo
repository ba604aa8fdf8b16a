% Miquel's theorem on six circles (Auguste Miquel, 1838): A, B, C, D are on one circle, and so are A, B, A1, B1; B, C,
% B1, C1; C, D, C1, D1, and D, A, D1, A1. Then A1, B1, C1, D1 are on one circle too.
point O
point A
oncircle B O A
oncircle C O A
oncircle D O A
point A1
circumcenter K A A1 B
oncircle B1 K A
circumcenter L B B1 C
oncircle C1 L B
circumcenter M C C1 D
circumcenter N D A A1
cc D1 M N D
prove { concyclic A1 B1 C1 D1 }

% The circumcircles of the four triangles of four lines meet in one point (Jakob Steiner, 1828; Auguste Miquel, 1838).
point A
point B
point C
online D B C
online E C A
inter F A B D E
circumcenter O A B C
circumcenter P A E F
cc M O P A
prove { concyclic B D F M }

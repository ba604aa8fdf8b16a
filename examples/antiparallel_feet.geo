% The feet of two altitudes and the two corners from which they start are on one circle (classical).
point A
point B
point C
foot E B C A
foot F C A B
prove { concyclic B C E F }

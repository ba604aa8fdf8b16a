% proved: the feet of two altitudes and the corners of the third side are on one circle
point A
point B
point C
foot D B A C
foot E C A B
prove { concyclic B C D E }

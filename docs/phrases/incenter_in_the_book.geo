% spent, spent with the most steps: the meeting point of two bisectors is equally far from two sides
point I
point B
point C
reflect C1 C B I
reflect B1 B C I
inter A B C1 C B1
foot X I B C
foot Y I C A
prove { same_length I X I Y }

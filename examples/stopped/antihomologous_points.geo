% Antihomologous points of two circles (19th century): a homothety with the centre S takes one circle to another one.
% Two lines through S meet the first circle at A, B and at C, D; the points A, C and the images B1, D1 are on one
% circle.
point M
point A
point S
param k
second B A S M
lratio B1 S B k
oncircle C M A
second D C S M
lratio D1 S D k
prove { concyclic A B1 C D1 }

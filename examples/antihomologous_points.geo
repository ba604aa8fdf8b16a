% Antihomologous points of two circles (19th century): a homothety with the centre S takes one circle to another one.
% A line through S meets the first circle at A and B, and the second one at the image B1 of B; then SA SB1 is the same
% for all such lines. Here: the same for a second line, with C and D. So A, B1, C and D1 are on one circle.
point M
point A
point S
param k
second B A S M
lratio B1 S B k
oncircle C M A
second D C S M
lratio D1 S D k
prove { equal { pythagoras_difference3 A S B1 } { pythagoras_difference3 C S D1 } }

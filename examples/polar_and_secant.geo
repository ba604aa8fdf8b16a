% A secant through P cuts a circle at A and B and the polar of P at Q, the fourth harmonic point (Apollonius of Perga,
% Conics III.37). The figure begins with P, A and B.
point P
point A
online B P A
midpoint M A B
param s
tratio O M A s
inverse N P O A
tratio T N O 1
inter Q A P N T
prove { harmonic A B P Q }

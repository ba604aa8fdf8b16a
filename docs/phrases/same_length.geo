% proved: a point of the perpendicular bisector is equally far from both ends
point A
point B
midpoint M A B
param h
tratio P M A h
prove { same_length P A P B }

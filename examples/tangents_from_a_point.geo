% The two tangents from a point A to a circle have the same length (Euclid's time; Elements III.36). A is the inverse
% of the midpoint of the chord between the points of contact.
point I
point E
oncircle F I E
midpoint K E F
inverse A K I E
prove { same_length A E A F }

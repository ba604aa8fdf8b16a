% Vecten's theorem (19th century): squares stand outside on the sides of a triangle. The line from a corner to the
% centre of the opposite square is perpendicular to the segment between the other two centres.
point A
point B
point C
midpoint K B C
midpoint L C A
midpoint M A B
tratio P K C 1
tratio Q L A 1
tratio R M B 1
prove { perpendicular A P Q R }

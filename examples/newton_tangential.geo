% Newton's theorem (Isaac Newton): the centre of a circle that touches the four sides of a quadrilateral is on the line
% through the midpoints of the diagonals.
point I
point P
oncircle Q I P
oncircle R I P
oncircle S I P
midpoint K P Q
midpoint L Q R
midpoint M R S
midpoint N S P
inverse A K I P
inverse B L I P
inverse C M I P
inverse D N I P
midpoint U A C
midpoint V B D
prove { collinear I U V }

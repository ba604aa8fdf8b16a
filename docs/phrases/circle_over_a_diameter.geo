% proved: a point of the circle with the diameter AB sees AB at a right angle
point A
point B
midpoint O A B
oncircle C O A
prove { perpendicular A C C B }

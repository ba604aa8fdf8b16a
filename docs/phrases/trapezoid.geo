% proved: the midline of a trapezoid is parallel to its bases
point A
point B
point C
param r
pratio D C B A r
midpoint M A D
midpoint N B C
prove { parallel M N A B }

% false 1: not every triangle is isosceles; the assumption asks for one that is not flat
point A
point B
point C
assume not_collinear A B C
prove { same_length A B A C }

% false 1: not all four points are on one line; the assumptions ask for two that differ, and for lines that meet
point A
point B
point C
point D
assume different A B
assume not_parallel A B C D
prove { collinear A B C }

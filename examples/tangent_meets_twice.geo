% A tangent has one point with the circle, so there is no second one. Impossible.
point O
point T
tratio P T O 1
second X T P O
prove { collinear T P X }

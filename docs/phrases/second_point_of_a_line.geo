% proved: the power of P, by two lines that go through it
point O
point A
oncircle C O A
point P
second X A P O
second Y C P O
prove { equal { pythagoras_difference3 A P X } { pythagoras_difference3 C P Y } }

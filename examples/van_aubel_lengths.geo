% Van Aubel's theorem, second part: the two segments have the same length.
point A
point B
point C
point D
midpoint K A B
midpoint L B C
midpoint M C D
midpoint N D A
tratio P K B 1
tratio Q L C 1
tratio R M D 1
tratio S N A 1
prove { same_length P R Q S }

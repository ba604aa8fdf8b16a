% Van Aubel's theorem (Henri van Aubel, 1878): squares stand on the sides of any quadrilateral; the segment between
% the centres of opposite squares is as long as the other one, and perpendicular to it. Here: perpendicular.
point A
point B
point C
point D
midpoint K A B
midpoint L B C
midpoint M C D
midpoint N D A
tratio P K B 1
tratio Q L C 1
tratio R M D 1
tratio S N A 1
prove { perpendicular P R Q S }

% The tangents at the ends A and B of a diameter are met by a third tangent at C and D. The angle COD at the centre is
% right (classical). T is the third point of contact, and C and D are inverse to the midpoints of AT and BT.
point O
point A
symmetric B A O
oncircle T O A
midpoint K A T
midpoint L B T
inverse C K O A
inverse D L O A
prove { perpendicular O C O D }

% Three circles around U, V and W pass through a point M; the first meets the others again at F and E. From a point A
% of the first circle the lines AF and AE have the angle VUW. So the centres of the three circles of Miquel's theorem
% make a triangle that is similar to the first one (classical).
point M
point U
point V
point W
cc F U V M
cc E W U M
oncircle A U M
prove { equal { mult { signed_area3 F A E } { pythagoras_difference3 V U W } }
              { mult { signed_area3 V U W } { pythagoras_difference3 F A E } } }

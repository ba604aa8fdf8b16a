% The co-side theorem (Chou, Gao and Zhang, Machine Proofs in Geometry, 1994; compare Euclid, Elements VI.1): where
% the line PQ meets the line AB at M, the areas PAB and QAB are as PM to QM.
point A
point B
point P
point Q
inter M P Q A B
prove { equal { signed_area3 P A B } { mult { sratio P M Q M } { signed_area3 Q A B } } }

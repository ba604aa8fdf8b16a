" The construction language in colour. Copy the folders syntax and ftdetect to ~/.vim.
" SPDX-License-Identifier: Apache-2.0
if exists("b:current_syntax")
  finish
endif
syn keyword geoCommand point param line parallel perp med intersec inter foot pratio tratio online lratio midpoint
syn keyword geoCommand translate symmetric reflect circumcenter orthocenter centroid oncircle second cc inverse weights
syn keyword geoProve prove assume
syn keyword geoStatement equal collinear perpendicular identical same_length harmonic concyclic
syn keyword geoExpression signed_area3 pythagoras_difference3 sratio neg sum sub mult div
syn match geoCondition "\(\<assume\s\+\)\@<=\(different\|not_collinear\|not_parallel\)\>"
syn match geoNumber "-\?\<\d\+\>"
syn match geoComment "%.*$"
hi def link geoCommand Type
hi def link geoProve Keyword
hi def link geoStatement Statement
hi def link geoCondition Statement
hi def link geoExpression Function
hi def link geoNumber Number
hi def link geoComment Comment
let b:current_syntax = "geo"

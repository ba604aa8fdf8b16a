"""Alterations of the file that geo coq makes, for tests/coq: Coq refuses each."""
# SPDX-License-Identifier: Apache-2.0

# A module of the stored file, a text in it, and another in its place.
FILES = [
    # the certificate
    ("ceva", "(MPoint 6, 0)", "(MPoint 5, 0)"),
    ("ceva", "(MPoint 6, 0)", "(MPoint 6, 1)"),
    ("ceva", "(MPoint 6, 0)", "(MCoords, 0)"),
    ("ceva", "(-1210135369, [(MCut (-1) [], 1210135369)", "(1210135369, [(MCut (-1) [], 1210135369)"),
    ("ceva", "MCut (-1) []", "MCut (1) []"),
    ("ceva", "MRatio 0 6 1 6 21 6", "MRatio 0 6 1 6 22 6"),
    ("ceva", "MRatio 0 6 1 6 21 6", "MRatio0 0 6 1 6"),
    ("ceva", "85509559406402", "85509559406403"),
    ("ceva", "(-549761809, [(MCut (-1) [], 549761809); (MPoint 4, 0)]);", ""),
    ("ceva", "Log false values", "Log false []"),
    ("weights_of_version_1", "Log true", "Log false"),
    # the numbers
    ("ceva", "[0; 0; 0; 1; 0; 2; 1; 0]%Z", "[0; 0; 0; 1; 0; 1; 1; 0]%Z"),
    ("ceva", "[0; 0; 0; 1; 0; 2; 1; 0]%Z", "[0; 0; 0; 1; 0; 2; 1]%Z"),
    ("varignon_as_a_rectangle", "[0; 0; 0; 0; 0; 1; 0; 1]%Z", "[0; 0; 0; 0; 0; 0; 0; 1]%Z"),
    # the text
    ("ceva", "inter D B C A P\ninter", "inter D B A C P\ninter"),
    ("ceva", "point P\n", "point Q\n"),
    ("ceva", "sratio A F F B }", "sratio F A F B }"),
    ("ceva", "prove {", "prove"),
    ("midline_meets_the_base", "midpoint N A C\n", "lratio N A C 2\n"),
    ("varignon_as_a_rectangle", "midpoint K A B\n", "inter K A C B D\n"),
    # what is said of the text
    ("ceva", "text_is_true text values", "text_is_broken text values 1"),
    ("varignon_as_a_rectangle", "text_is_broken text values 1", "text_is_broken text values 2"),
    ("varignon_as_a_rectangle", "text_is_broken text values 1", "text_is_true text values"),
    ("midline_meets_the_base", "text_is_impossible text 1", "text_is_impossible text 2"),
    # the same in Coq's words
    ("ceva", "  not_parallel B C A P /\\", "  not_parallel B C A B /\\"),
    ("ceva", "  not_parallel B C A P /\\   (* condition 1 *)\n", ""),
    ("ceva", "  inter E C A B P /\\", "  inter E C A P B /\\"),
    ("ceva", "sratio C E E A))", "sratio C E A E))"),
    ("ceva", "  parallel A F F B /\\\n", ""),
    ("ceva", '("F", F)', '("F", D)'),
    ("varignon_as_a_rectangle", "  perpendicular K_ L L M.", "  parallel K_ L L M."),
    ("midline_meets_the_base", "  not_parallel M N B C.", "  not_parallel M N A B."),
]

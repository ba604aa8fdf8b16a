# Prints the line that is nearest to the word in the environment, or nothing: word=WORD awk -f near.awk -f nearest.awk
# SPDX-License-Identifier: Apache-2.0
{ weigh(ENVIRON["word"], $0) }
END { if (nearest != "") print nearest }

#!/bin/sh
# Each while/loop of the sources: "file:line  CONST|-  head", CONST where its own body (inner loops apart) steps a name by a number,
# a constant or a constant's path. Run in the repository's root.
awk '
FNR==1{d=0}
{ line=$0; match(line,/^ */); ind=RLENGTH }
line ~ /^ *(while|loop)[ {]/ { d++; L[d]=FILENAME ":" FNR; H[d]=line; I[d]=ind; C[d]="-"; next }
d>0 && line ~ /[a-z_] [-+]= ([0-9]+|[A-Z][A-Z_]*|[A-Z][A-Za-z]*::[A-Z_]+);/ { C[d]="CONST" }
d>0 && ind==I[d] && line ~ /^ *}/ { sub(/^ */,"",H[d]); print L[d] "  " C[d] "  " H[d]; d-- }
' crates/*/src/*.rt

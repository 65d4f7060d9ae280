#!/bin/sh
# Groups of functions whose bodies have the same shape. $1 = tokens (identifiers, numbers and strings made equal, casts dropped)
# or flow (only control words and arrows). Run in the repository's root.
MODE=${1:-tokens} perl -e '
for my $f (glob "crates/*/src/*.rt") { open F,$f; my(@b,$n,$l,$in,$ind); while(<F>){ chomp;
  if(!$in && /^(\s*)(?:pub(?:\(crate\))? )?(?:extern "C" )?fn (\w+)/){$ind=length $1;$n=$2;$l=$.;$in=1;@b=()}
  if($in && $in==1 && (/^\s*\{$/ || (/ \{$/ && !/requires|ensures/))){$in=2;next}
  if($in && $in==2){ if(/^(\s*)\}$/ && length($1)==$ind){ $in=0; my $t=join " ",@b;
      $t=~s/b?"[^"]*"|b?\x27.\x27/S/g; $t=~s/ as \w+//g; $t=~s/;? *$//;
      if($ENV{MODE} eq "flow"){ $t=join " ",$t=~/\b(?:if|else|while|loop|match|for|return)\b|=>|[-+]=/g }
      else { $t=~s/\b(?!(?:if|while|match|return|let|mut|for|in|else|loop)\b)[A-Za-z_]\w*(?:::\w+)*/a/g; $t=~s/\b[0-9]\w*/0/g; $t=~s/,? +([)}])/$1/g; $t=~s/\s+//g }
      push @{$g{$t}},"$f:$l:$n" if @b>1 && $t ne "" }
    else { s/^\s+//; s{//.*}{}; push @b,$_ if $_ ne "" } } } close F }
for (sort {$g{$a}[0] cmp $g{$b}[0]} keys %g){ print join("  ",map {s{crates/|src/|\.rt}{}gr} @{$g{$_}}),"\n" if @{$g{$_}}>1 }'

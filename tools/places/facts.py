#!/usr/bin/env python3
"""How many functions have a contract that matches a pattern, or parameters of all of some names; with -v first, which.
In the repository's root: facts.py contract 'Opens' or facts.py -v params blob w"""
import os,re,sys,collections
sys.path.insert(0,os.path.dirname(os.path.abspath(__file__)))
from fns import out
verbose=sys.argv[1]=='-v'
kind,*args=sys.argv[1+verbose:]
hit=[]
for f,l,n,ps,c,_ in out:
    names={p.split(':')[0].strip() for p in ps}
    if (re.search(args[0],c) if kind=='contract' else set(args)<=names): hit.append((f.split('/')[1],f'{f.split("/")[-1]}:{l}:{n}'))
print(len(hit),dict(collections.Counter(a for a,_ in hit)))
if verbose:
    for a,b in hit: print('  ',a,b)

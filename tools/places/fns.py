import re,glob,collections,sys
# parse functions: name, params, contract text
out=[]
for f in sorted(glob.glob('crates/*/src/*.rt')):
    L=open(f).read().split('\n'); i=0
    while i<len(L):
        m=re.match(r'\s*(pub(\(crate\))? )?(extern "C" )?fn ([a-z_0-9]+)',L[i])
        if m:
            j=i; buf=[]
            # until a line that is '{' alone or ends with ' {' outside contract
            ind=len(L[i])-len(L[i].lstrip())
            while True:
                s=L[j]
                if s.strip()=='{' and j>i: break
                buf.append(s)
                if s.rstrip().endswith(' {') and not re.match(r'\s*(requires|ensures)',s) : break
                j+=1
            t=' '.join(x.strip() for x in buf)
            # params
            k=t.index('(',t.index('fn ')); d=0
            # handle generics <..>
            e=k
            while True:
                if t[e]=='(':d+=1
                if t[e]==')':
                    d-=1
                    if d==0:break
                e+=1
            ps=t[k+1:e]
            # split on commas at depth0
            parts=[];d=0;cur=''
            for c in ps:
                if c in '([<':d+=1
                if c in ')]>':d-=1
                if c==',' and d==0: parts.append(cur.strip());cur=''
                else: cur+=c
            if cur.strip(): parts.append(cur.strip())
            c=t[e:]
            kc=re.search(r'\b(requires|ensures)\b',c)
            contract=c[kc.start():] if kc else ''
            out.append((f,i+1,m.group(4),parts,contract,c))
            i=j
        i+=1
if __name__=='__main__':
    print(len(out))

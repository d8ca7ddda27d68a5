# A reader of directives by the rows of specs/Grammar.antt, as the machine of specs/Machine.antt goes by them.
import re
from by_hand import WORDS,FORMS,DIRS,deduces
def load(path):
    table={}
    for line in open(path):
        m=re.match(r'grammar S\.(\w+) (.*?) = (.*)$',line)
        if not m: continue
        s,c,r=m.groups()
        table.setdefault(s,[]).append((pattern(c),row(r)))
    return table
def pattern(c):
    c=c.strip('()')
    if c=='_': return ('any',)
    p=c.split()
    if p[0]=='C.Word': return ('word',) if p[1]=='w' else ('is',p[1])
    if p[0]=='C.Opener': return ('is',p[1][2:])
    if p[0]=='C.Directive': return ('dir',) if p[1]=='d' else ('is',p[1][2:])
    if p[0]=='C.Mark': return ('mark',) if p[1]=='m' else ('is',p[1][2:])
    return ('is',p[0][2:])
MARKS={'Close','CloseBracket','CloseBrace','Bar','Comma','Semicolon','Bang','Colon','Dot','Becomes','Arrow','To','Unequal','Else','ListOf','Other'}
DIRW={'Domain','Datatype','Declare','Define','Assert','AssertClosed','Load'}
def matches(p,c):
    if p[0]=='any': return True
    if p[0]=='word': return c in WORDS
    if p[0]=='dir': return c in DIRW
    if p[0]=='mark': return c in MARKS
    return p[1]==c
ATTR={'any':('is',None),'expression':('is',False),'deduction':('is',True),'same':('same',),'alike':('top',),'bound':('bound',),'after':('after',)}
def items(t):
    t=t.strip()
    if t.startswith('(') and t.endswith(')'): t=t[1:-1]
    out=[]
    for x in t.split('∷'):
        x=x.strip()
        if x=='[]': continue
        w=x.split()
        if w[0]=='name': out.append(('token','Plain'))
        elif w[0]=='act': out.append(('act',w[1][2:]))
        elif w[0]=='mark': out.append(('token',w[1][2:]))
        elif w[0]=='opener': out.append(('token',w[1][2:]))
        elif w[0]=='I.Token': out.append(('token',w[1][2:]))
        else: out.append(('sym',w[1][2:],ATTR[w[0]]))
    return tuple(out)
def actions(t):
    t=t.strip()
    if t.startswith('('): t=t[1:-1]
    return tuple(x.strip()[2:] for x in t.split('∷') if x.strip()!='[]')
def row(r):
    if r=='none': return ('none',)
    if r=='last_name': return ('skip',False,('Name','PickAny'))
    m=re.match(r'skip Any (.*)$',r)
    if m: return ('skip',None,actions(m.group(1)))
    m=re.match(r'(by\w*) (.*)$',r)
    if m: return ('take',{'by':None,'by_expression':False,'by_deduction':True,'by_new':None}[m.group(1)],m.group(1)=='by_new',items(m.group(2)))
    m=re.match(r'as_(\w+) S\.(\w+) (.*)$',r)
    if m: return ('as',None,m.group(2),{'any':('is',None),'expression':('is',False),'deduction':('is',True),'same':('same',)}[m.group(1)],items(m.group(3)))
    m=re.match(r'begin_as \(Only false\) S\.(\w+) \(Is \(Only false\)\) (.*)$',r)
    if m: return ('as',False,m.group(1),('is',False),items(m.group(2)))
    raise Exception(r)
class Grammar:
    def __init__(self,path): self.table=load(path); self.memo={}
    def row(self,s,c):
        k=(s,c); r=self.memo.get(k)
        if r is None:
            r=next((r for p,r in self.table.get(s,[]) if matches(p,c)),('none',)); self.memo[k]=r
        return r
def fits(w,m): return True if w is None or m is None else w==m
def want_of(a,k):
    # a told attribute
    if a[0]=='is': return a[1]
    r,w=a
    if r=='same': return w
    if r=='top': return k
    if r=='bound': return None if w is None or w is True else False
    if r=='after': return True if k else w
def told(w,a): return a if a[0]=='is' else (a[0],w)
def told_all(w,js): return tuple(('sym',i[1],told(w,i[2])) if i[0]=='sym' else i for i in js)
def by_token(n,G,c,k,w,r):
    if r[0]=='take': return ('begin',fits(w,r[1]),r[2],told_all(w,r[3]))
    if r[0]=='as' and n>0:
        o=by_token(n-1,G,c,k,want_of(told(w,r[3]),k),G.row(r[2],c))
        if o[0]=='begin': return ('begin',fits(w,r[1]) and o[1],o[2],o[3]+told_all(w,r[4]))
    return ('no',)
def start(G,s,c,k,w):
    r=G.row(s,c)
    if r[0]=='skip': return ('pass',fits(w,r[1]),r[2])
    return by_token(2,G,c,k,w,r)
NP=0; NN='?'
def kind(vs):
    if not vs: return False
    v=vs[0]; t=v[0]
    if t=='phrase': return deduces(v[1])
    if t=='phrases': return bool(v[1]) and deduces(v[1][0])
    if t=='bindings': return bool(v[1]) and deduces(v[1][-1][1])
    if t in ('clauses','branches'): return bool(v[1]) and deduces(v[1][0][1])
    return False
SAVE_PLACE=FORMS|DIRW|{'Open','OpenBracket','OpenBrace'}
def save(t,vs):
    p,c,n=t
    if c in WORDS or c in ('Wild','SomeOf','SortVariable'): return (('name',p,n),vs)
    if c=='Variable': return (('variable',p,n),vs)
    if c=='Text': return (('text',p,n),vs)
    if c in SAVE_PLACE: return (('place',p),vs)
    return vs
def allows(guard,t,vs):
    if not guard: return True
    v=vs[0] if vs else None
    if v and v[0]=='names': return t[2] not in v[1]
    if v and v[0]=='bindings': return t[2] not in [b[0] for b in v[1]]
    return True
# actions, strict: a value of another shape is an error of this script's
def act(x,vs):
    def pop(*ts):
        nonlocal vs
        out=[]
        for t in reversed(ts):
            v,vs=vs
            assert t is None or v[0]==t,(x,v,t)
            out.append(v)
        return list(reversed(out))
    def put(v):
        nonlocal vs
        vs=(v,vs)
    P=lambda t: put(('phrase',t)); D=lambda p,s: put(('directive',('directive',p[1],s)))
    if x=='Drop': pop(None)
    elif x=='Again': p,=pop('place'); put(p); put(p)
    elif x in ('NoSorts','NoPatterns','NoNames','NoPhrases','NoBindings','NoClauses','NoBranches','NoBinders','NoConstructors'): put((x[2:].lower(),()))
    elif x=='AddSort': a,b=pop('sorts','sort'); put(('sorts',a[1]+(b[1],)))
    elif x=='NameSort': a,=pop('name'); put(('sort',('name',a[2])))
    elif x=='VariableSort': a,=pop('name'); put(('sort',('var',a[2])))
    elif x=='ConSort': p,a,b=pop('place','name','sorts'); put(('sort',('con',a[2],b[1])))
    elif x=='AddPattern': a,b=pop('patterns','pattern'); put(('patterns',a[1]+(b[1],)))
    elif x=='AnyPattern': pop('name'); put(('pattern',('pany',)))
    elif x=='NamePattern': a,=pop('name'); put(('pattern',('pname',a[2])))
    elif x=='StringPattern': a,=pop('text'); put(('pattern',('pstr',a[2])))
    elif x=='ListPattern': p,a=pop('place','patterns'); put(('pattern',('plist',a[1])))
    elif x=='ListOfPattern': p,a,b=pop('place','pattern','pattern'); put(('pattern',('plistof',a[1],b[1])))
    elif x=='SomePattern': p,a,b=pop('place','name','name'); put(('pattern',('psome',a[2],b[2])))
    elif x=='AppPattern': p,a,b=pop('place','name','patterns'); put(('pattern',('papp',a[2],b[1])))
    elif x=='OneName': a,=pop('name'); put(('names',(a[2],)))
    elif x=='AddName': a,b=pop('names','name'); put(('names',a[1]+(b[2],)))
    elif x=='Name': a,=pop('name'); P(('name_',a[1],a[2]))
    elif x=='Variable': a,=pop('variable'); P(('var_',a[1],a[2],None))
    elif x=='SortedVariable': a,s=pop('variable','sort'); P(('var_',a[1],a[2],s[1]))
    elif x=='String': a,=pop('text'); P(('str_',a[1],a[2]))
    elif x=='OnePhrase': a,=pop('phrase'); put(('phrases',(a[1],)))
    elif x=='AddPhrase': a,b=pop('phrases','phrase'); put(('phrases',a[1]+(b[1],)))
    elif x=='List': p,a=pop('place','phrases'); P(('list',p[1],a[1]))
    elif x=='Unwrap': p,a=pop('place','phrase'); put(a)
    elif x=='Ascribe': p,a,s=pop('place','phrase','sort'); P(('ascribe',p[1],a[1],s[1]))
    elif x in ('Apply','Call'): p,a,b=pop('place','phrase','phrases'); P((x.lower(),p[1],a[1],b[1]))
    elif x in ('Lambda','Method'): p,a,b=pop('place','names','phrase'); P((x.lower(),p[1],a[1],b[1]))
    elif x=='AddBinding': a,n,b=pop('bindings','name','phrase'); put(('bindings',a[1]+((n[2],b[1]),)))
    elif x in ('Let','LetRec'): p,a,b=pop('place','bindings','phrase'); P((x.lower(),p[1],a[1],b[1]))
    elif x=='AddClause': a,n,b=pop('clauses','pattern','phrase'); put(('clauses',a[1]+((n[1],b[1]),)))
    elif x in ('Match','Induct','Cases'): p,a,b=pop('place','phrase','clauses'); P((x.lower(),p[1],a[1],b[1]))
    elif x=='AddBranch': a,n,b=pop('branches','phrase','phrase'); put(('branches',a[1]+((n[1],b[1]),)))
    elif x=='Check': p,a=pop('place','branches'); P(('check',p[1],a[1],None))
    elif x=='CheckElse': p,a,b=pop('place','branches','phrase'); P(('check',p[1],a[1],b[1]))
    elif x=='Try': p,a=pop('place','phrases'); P(('try',p[1],a[1]))
    elif x=='Sequence': p,a=pop('place','phrases'); P(('seq',p[1],a[1]))
    elif x=='Named': a,=pop('name'); put(('label',a[2]))
    elif x=='Unnamed': a,=pop('phrase'); put(('label',None)); put(a)
    elif x in ('Assume','Absurd','Conclude'): p,n,a,b=pop('place','label','phrase','phrase'); P((x.lower(),p[1],n[1],a[1],b[1]))
    elif x=='AddBinder':
        a,n,v=pop('binders','name',None); assert v[0] in ('name','phrase'); put(('binders',a[1]+((n[2],None),))); put(v)
    elif x=='AddSortedBinder': a,n,s=pop('binders','name','sort'); put(('binders',a[1]+((n[2],s[1]),)))
    elif x=='PickAny': p,a,b=pop('place','binders','phrase'); P(('pick_any',p[1],a[1],b[1]))
    elif x=='PickWitness': p,n,a,b=pop('place','name','phrase','phrase'); P(('pick_witness',p[1],n[2],a[1],b[1]))
    elif x=='Domain': p,n,a=pop('place','name','names'); D(p,('domain',n[2],a[1]))
    elif x=='AddConstructor': a,n,s=pop('constructors','name','sorts'); put(('constructors',a[1]+((n[2],s[1]),)))
    elif x=='Datatype': p,n,a,c=pop('place','name','names','constructors'); D(p,('datatype',n[2],a[1],c[1]))
    elif x=='NoParameters': put(('parameters',None))
    elif x=='Parameters': a,p,b=pop('parameters','place','names'); put(('parameters',b[1]))
    elif x=='NoArguments': s,=pop('sort'); put(('sorts',())); put(s)
    elif x=='Declare': p,n,v,a,s=pop('place','names','parameters','sorts','sort'); D(p,('declare',n[1],v[1],a[1],s[1]))
    elif x=='Define': p,n,a=pop('place','name','phrase'); D(p,('define',n[2],a[1]))
    elif x=='DefineFun': p,n,a,b=pop('place','name','names','phrase'); D(p,('define_fun',n[2],a[1],b[1]))
    elif x in ('Assert','AssertClosed'): p,n,a=pop('place','label','phrase'); D(p,('assert',n[1],x!='Assert',a[1]))
    elif x=='Load': p,a=pop('place','text'); D(p,('load',a[2]))
    elif x=='Say': a,=pop('phrase'); put(('directive',('directive',a[1][1],('phrase',a[1]))))
    elif x=='SayAt': p,a=pop('place','phrase'); D(p,('phrase',a[1]))
    else: raise Exception(x)
    return vs
def acts(xs,vs):
    for x in xs: vs=act(x,vs)
    return vs
def prepend(js,ks):
    for j in reversed(js): ks=(j,ks)
    return ks
def settle(is_,vs):
    while is_ and is_[0][0]=='act': vs=act(is_[0][1],vs); is_=is_[1]
    return (is_,vs)
# a configuration is (items, values), settled
def step(G,c,t):
    is_,vs=c; flag=True
    while True:
        if not is_:
            assert vs[1] is None or vs[1]==(),vs
            return ('over',flag,vs[0][1])
        i,rest=is_
        if i[0]=='act': vs=act(i[1],vs); is_=rest; continue
        if i[0]=='token':
            if i[1]!=t[1]: return ('no',)
            return ('on',flag,settle(rest,save(t,vs)))
        o=start(G,i[1],t[1],kind(vs),want_of(i[2],kind(vs)))
        if o[0]=='no': return ('no',)
        if o[0]=='pass': flag=flag and o[1]; vs=acts(o[2],vs); is_=rest; continue
        if not allows(o[2],t,vs): return ('no',)
        return ('on',flag and o[1],settle(prepend(o[3],rest),save(t,vs)))
def at_end(G,c):
    is_,vs=c; flag=True
    while is_:
        i,rest=is_
        if i[0]=='act': vs=act(i[1],vs); is_=rest; continue
        if i[0]=='token': return ('unfinished',)
        o=start(G,i[1],'Other',kind(vs),want_of(i[2],kind(vs)))
        if o[0]!='pass': return ('unfinished',)
        flag=flag and o[1]; vs=acts(o[2],vs); is_=rest
    return ('finished',flag,vs[0][1])
START=((('sym','Directive',('is',None)),()),())

# A reader of directives written by hand, one token at a time: what may come next, and what is read behind it. It knows
# nothing of the grammar's table, so the two can be compared. A token is (place, class, name).
WORDS={'Plain','Dotted','Logical','Infix','Tilde','Back'}
FORMS={'Lambda','Method','Let','LetDeduction','LetRec','Match','MatchDeduction','Induct','Cases','Check','Try','Begin','Assume','Absurd','Conclude','PickAny','PickWitness'}
DIRS={'Domain','Datatype','Declare','Define','Assert','AssertClosed','Load','Other'}
REF=('refuse',)
def done(v): return ('done',v)
def token(f): return ('token',f)
def peek(f,q): return ('peek',f,q)
def goto(f): return ('goto',f)
def push(k,r): return ('push',k,r)
def check(b,r): return ('check',b,r)
def deeper(r): return ('deeper',r)
def shallower(r): return ('shallower',r)
def when(b,r): return r if b else REF
def unless(b,r): return REF if b else r
def expect(m,r): return token(lambda t: r if t[1]==m else REF)
ANY=None
def fits(w,k): return True if w is None else w==k
DED={'call','seq','assume','absurd','conclude','pick_any','pick_witness','induct','cases'}
def deduces(x):
    t=x[0]
    if t in DED: return True
    if t in ('let','letrec'): return deduces(x[3])
    if t=='match': return bool(x[3]) and deduces(x[3][0][1])
    if t=='check': return bool(x[2]) and deduces(x[2][0][1])
    if t=='try': return bool(x[2]) and deduces(x[2][0])
    return False
PATH={'Plain','Dotted'}; HEAD={'Plain','Dotted','Logical','Infix'}
# small
def sort_named(t): return when(t[1] in PATH, push(lambda ss: done(('con',t[2],ss)), goto(sorts('Close',()))))
def sort_rule(t):
    if t[1] in PATH: return done(('name',t[2]))
    if t[1]=='SortVariable': return done(('var',t[2]))
    if t[1]=='Open': return deeper(token(sort_named))
    return REF
def sorts(c,ss):
    def f(t):
        if t[1]==c: return shallower(done(ss))
        return push(lambda s: goto(sorts(c,ss+(s,))), sort_rule(t))
    return f
def some_named(k):
    def f(t):
        if t[1]=='Plain': return expect('Close',shallower(done(('psome',k,t[2]))))
        return REF
    return f
def pattern_inside(t):
    if t[1]=='ListOf': return push(lambda x: push(lambda y: expect('Close',shallower(done(('plistof',x,y)))), goto(pattern_rule)), goto(pattern_rule))
    if t[1]=='SomeOf': return token(some_named(t[2]))
    if t[1] in HEAD: return push(lambda ps: done(('papp',t[2],ps)), goto(patterns('Close',())))
    return REF
def pattern_rule(t):
    if t[1]=='Wild': return done(('pany',))
    if t[1] in PATH: return done(('pname',t[2]))
    if t[1]=='Text': return done(('pstr',t[2]))
    if t[1]=='OpenBracket': return deeper(push(lambda ps: done(('plist',ps)), goto(patterns('CloseBracket',()))))
    if t[1]=='Open': return deeper(token(pattern_inside))
    return REF
def patterns(c,ps):
    def f(t):
        if t[1]==c: return shallower(done(ps))
        return push(lambda x: goto(patterns(c,ps+(x,))), pattern_rule(t))
    return f
def params(seen):
    def f(t):
        if t[1]=='Close': return shallower(done(seen))
        if t[1]=='Wild': return goto(params(seen+(t[2],)))
        if t[1]=='Plain': return unless(t[2] in seen, goto(params(seen+(t[2],))))
        return REF
    return f
def svars(seen):
    def f(t):
        if t[1]=='Close': return shallower(done(seen))
        if t[1]=='SortVariable': return unless(t[2] in seen, goto(svars(seen+(t[2],))))
        return REF
    return f
# phrases
def after_var(p,x):
    def f(t):
        if t[1]=='Colon': return token(lambda _: push(lambda s: done(('var_',p,x,s)), goto(sort_rule)))
        return done(('var_',p,x,None))
    return f
# behind `peek` the token isn't taken yet; `token` there takes it
def own_pair(x): return expect('Close',shallower(done(x)))
def bare_end(x): return shallower(done(x))
def alternatives_rule(p,sep,w):
    if sep=='Bar': return push(lambda x: push(lambda xs: done(('try',p,xs)), goto(tail('Bar',deduces(x),(x,)))), goto(phrase(w)))
    return push(lambda x: push(lambda xs: done(('seq',p,xs)), goto(tail('Semicolon',True,(x,)))), goto(phrase(True)))
BODY={'Lambda':False,'Method':True}
NAMEOF={'Lambda':'lambda','Method':'method','Match':'match','MatchDeduction':'match','Induct':'induct','Cases':'cases','Assume':'assume','Absurd':'absurd','Conclude':'conclude'}
def params_open(c,p):
    def f(t):
        if t[1]=='Open': return deeper(push(lambda xs: push(lambda x: done((NAMEOF[c],p,xs,x)), goto(phrase(BODY[c]))), goto(params(()))))
        return REF
    return f
def bound(w): return None if w is None or w is True else False
def bound_rule(k,w): return goto(closure_rule) if k=='LetRec' else goto(phrase(bound(w)))
def after_row(k,w,x): return w if k=='LetRec' else (True if deduces(x) else w)
def let_phrase(k,p,bs,x): return ('letrec' if k=='LetRec' else 'let',p,bs,x)
def repeats(k,n,bs): return k=='LetRec' and n in [b[0] for b in bs]
def row_close(k,p,w,bs,n): return lambda x: expect('Close',shallower(goto(row_pairs(k,p,after_row(k,w,x),bs+((n,x),)))))
def row_name(k,p,w,bs):
    def f(t):
        if t[1]=='Plain': return unless(repeats(k,t[2],bs), push(row_close(k,p,w,bs,t[2]), bound_rule(k,w)))
        return REF
    return f
def let_body(k,p,w,bs): return push(lambda x: done(let_phrase(k,p,bs,x)), goto(phrase(w)))
def row_pairs(k,p,w,bs):
    def f(t):
        if t[1]=='Open': return deeper(token(row_name(k,p,w,bs)))
        if t[1]=='Close': return shallower(let_body(k,p,w,bs))
        return REF
    return f
def row_more(k,p,w,bs):
    def f(t):
        if t[1]=='Semicolon': return goto(rows(k,p,w,bs))
        if t[1]=='CloseBrace': return shallower(let_body(k,p,w,bs))
        return REF
    return f
def rows(k,p,w,bs):
    def f(t):
        if t[1]=='Plain':
            n=t[2]
            return unless(repeats(k,n,bs), expect('Becomes',push(lambda x: token(row_more(k,p,after_row(k,w,x),bs+((n,x),))), bound_rule(k,w))))
        return REF
    return f
def let_open(k,p,w):
    def f(t):
        if t[1]=='Open': return deeper(expect('Open',deeper(token(row_name(k,p,w,())))))
        if t[1]=='OpenBrace': return deeper(goto(rows(k,p,w,())))
        return REF
    return f
def clause_close(c,p,e,cs,l): return lambda x: expect('Close',shallower(goto(clause_pairs(c,p,e,deduces(x),cs+((l,x),)))))
def clause_inside(c,p,e,w,cs): return push(lambda l: push(clause_close(c,p,e,cs,l), goto(phrase(w))), goto(pattern_rule))
def clauses_at(c,p,e,cs): return (NAMEOF[c],p,e,cs)
def clause_pairs(c,p,e,w,cs):
    def f(t):
        if t[1]=='Open': return deeper(clause_inside(c,p,e,w,cs))
        if t[1]=='Close': return shallower(done(clauses_at(c,p,e,cs)))
        return REF
    return f
def clause_more(c,p,e,w,cs):
    def f(t):
        if t[1]=='Bar': return goto(clause_rows(c,p,e,w,cs))
        if t[1]=='CloseBrace': return shallower(done(clauses_at(c,p,e,cs)))
        return REF
    return f
def clause_rows(c,p,e,w,cs):
    return lambda t: push(lambda l: expect('Arrow',push(lambda x: token(clause_more(c,p,e,deduces(x),cs+((l,x),))), goto(phrase(w)))), pattern_rule(t))
def clauses_open(c,p,w,e):
    def f(t):
        if t[1]=='OpenBrace': return deeper(goto(clause_rows(c,p,e,w,())))
        return REF
    return f
def clauses_inside(c,p,w,e):
    def f(t):
        if t[1]=='OpenBrace': return push(own_pair,deeper(goto(clause_rows(c,p,e,w,()))))
        if t[1]=='Open': return deeper(clause_inside(c,p,e,w,()))
        return REF
    return f
def branch_close(p,bs,e): return lambda x: expect('Close',shallower(goto(branch_pairs(p,deduces(x),bs+((e,x),)))))
def else_close(p,bs): return lambda x: expect('Close',shallower(expect('Close',shallower(done(('check',p,bs,x))))))
def branch_pairs(p,w,bs):
    def f(t):
        if t[1]=='Open': return deeper(goto(branch_inside(p,True,w,bs)))
        if t[1]=='Close': return shallower(done(('check',p,bs,None)))
        return REF
    return f
def branch_more(p,w,bs):
    def f(t):
        if t[1]=='Bar': return goto(branch_rows(p,True,w,bs))
        if t[1]=='CloseBrace': return shallower(done(('check',p,bs,None)))
        return REF
    return f
def check_open(p,w):
    def f(t):
        if t[1]=='OpenBrace': return deeper(goto(branch_rows(p,False,w,())))
        return REF
    return f
def check_inside(p,w):
    def f(t):
        if t[1]=='OpenBrace': return push(own_pair,deeper(goto(branch_rows(p,False,w,()))))
        if t[1]=='Open': return deeper(goto(branch_inside(p,False,w,())))
        return REF
    return f
def branch_inside(p,later,w,bs):
    def f(t):
        if t[1]=='Else': return when(later,push(else_close(p,bs),goto(phrase(w))))
        return push(lambda e: push(branch_close(p,bs,e),goto(phrase(w))), phrase_rule(False,t))
    return f
def branch_rows(p,later,w,bs):
    def f(t):
        if t[1]=='Else': return when(later,expect('Arrow',push(lambda x: expect('CloseBrace',shallower(done(('check',p,bs,x)))),goto(phrase(w)))))
        return push(lambda e: expect('Arrow',push(lambda x: token(branch_more(p,deduces(x),bs+((e,x),))),goto(phrase(w)))), phrase_rule(False,t))
    return f
def try_open(p,w):
    def f(t):
        if t[1]=='OpenBrace': return deeper(alternatives_rule(p,'Bar',w))
        return REF
    return f
def pick_body(p,bs): return push(lambda d: done(('pick_any',p,bs,d)), goto(phrase(True)))
def pick_last(p,bs,q,n):
    if not bs: return pick_body(p,((n,None),))
    return check(False,done(('pick_any',p,bs,('name_',q,n))))
def begins_phrase(c): return c in WORDS or (c in FORMS and c!='Begin') or c in ('Variable','Text','Open','OpenBracket','OpenBrace')
def after_sorted(p,bs):
    def f(t):
        if t[1]=='Plain': return goto(binders(p,bs))
        return pick_body(p,bs)
    return f
def after_name(p,bs,q,n):
    def f(t):
        if t[1]=='Plain': return goto(binders(p,bs+((n,None),)))
        if t[1]=='Colon': return token(lambda _: push(lambda s: peek(after_sorted(p,bs+((n,s),)),pick_body(p,bs+((n,s),))), goto(sort_rule)))
        return pick_body(p,bs+((n,None),)) if begins_phrase(t[1]) else pick_last(p,bs,q,n)
    return f
def binders(p,bs):
    def f(t):
        if t[1]=='Plain': return peek(after_name(p,bs,t[0],t[2]),pick_last(p,bs,t[0],t[2]))
        return REF
    return f
def witness_name(p):
    def f(t):
        if t[1]=='Plain':
            n=t[2]
            return push(lambda f: push(lambda d: done(('pick_witness',p,n,f,d)),goto(phrase(True))),goto(phrase(None)))
        return REF
    return f
def clause_fits(c,w): return True if c=='Match' else fits(w,True)
def clause_want(c,w): return w if c=='Match' else True
def let_fits(k,w): return fits(w,True) if k=='LetDeduction' else True
def let_want(k,w): return True if k=='LetDeduction' else w
def form_rule(w,p,k):
    if k in BODY: return check(fits(w,False),token(params_open(k,p)))
    if k in ('Let','LetDeduction','LetRec'): return check(let_fits(k,w),token(let_open(k,p,let_want(k,w))))
    if k in ('Match','MatchDeduction','Induct','Cases'): return check(clause_fits(k,w),push(lambda e: token(clauses_open(k,p,clause_want(k,w),e)),goto(phrase(False))))
    if k=='Check': return token(check_open(p,w))
    if k=='Try': return token(try_open(p,w))
    if k=='Begin': return REF
    if k in ('Assume','Absurd','Conclude'): return check(fits(w,True),goto(hypothesis(k,p)))
    if k=='PickAny': return check(fits(w,True),goto(binders(p,())))
    if k=='PickWitness': return check(fits(w,True),token(witness_name(p)))
def paired_rule(w,p,k):
    if k in ('Match','MatchDeduction','Induct','Cases'): return check(clause_fits(k,w),push(lambda e: token(clauses_inside(k,p,clause_want(k,w),e)),goto(phrase(False))))
    if k=='Check': return token(check_inside(p,w))
    if k=='Try': return goto(try_inside(p,w))
    if k=='Begin': return check(fits(w,True),push(lambda x: push(lambda xs: done(('seq',p,xs)),goto(parts(True,'Close',(x,)))),goto(phrase(True))))
    return push(own_pair,form_rule(w,p,k))
def phrase(w): return lambda t: phrase_rule(w,t)
def phrase_rule(w,t):
    p,c,n=t
    if c in WORDS: return check(fits(w,False),done(('name_',p,n)))
    if c=='Variable': return check(fits(w,False),peek(after_var(p,n),done(('var_',p,n,None))))
    if c=='Text': return check(fits(w,False),done(('str_',p,n)))
    if c=='OpenBracket': return check(fits(w,False),deeper(push(lambda xs: done(('list',p,xs)),goto(parts(False,'CloseBracket',())))))
    if c=='OpenBrace': return check(fits(w,True),deeper(alternatives_rule(p,'Semicolon',w)))
    if c=='Open': return deeper(goto(inside(p,w)))
    if c=='Begin': return REF
    if c in FORMS: return deeper(push(bare_end,form_rule(w,p,c)))
    return REF
def heads(w,f): return fits(w,False) and not deduces(f)
def apply_rule(p,f,t): return push(lambda x: push(lambda xs: done(('apply',p,f,xs)),goto(parts(False,'Close',(x,)))),phrase_rule(False,t))
def is_operator(c): return c in ('Infix','Tilde','Unequal','Bar')
def second(p,w,word,op,f):
    def g(t):
        if t[1]=='Close': return shallower(done(('apply',p,f,()) if word else f))
        if t[1]=='Colon': return check(heads(w,f),push(lambda s: expect('Close',shallower(done(('ascribe',p,f,s)))),goto(sort_rule)))
        return unless(is_operator(t[1]) and not op, check(heads(w,f),apply_rule(p,f,t)))
    return g
def inside(p,w):
    def f(t):
        if t[1]=='Bang': return check(fits(w,True),push(lambda f: push(lambda xs: done(('call',p,f,xs)),goto(parts(None,'Close',()))),goto(phrase(False))))
        if t[1] in FORMS: return paired_rule(w,p,t[1])
        return when(t[1]!='Tilde',push(lambda f: token(second(p,w,t[1] in WORDS,is_operator(t[1]),f)),phrase_rule(w,t)))
    return f
def parts(w,c,xs):
    def f(t):
        if t[1]==c: return shallower(done(xs))
        return push(lambda x: goto(parts(w,c,xs+(x,))),phrase_rule(w,t))
    return f
def tail(s,w,xs):
    def f(t):
        if t[1]=='CloseBrace': return shallower(done(xs))
        if t[1]==s: return push(lambda x: goto(tail(s,w,xs+(x,))),goto(phrase(w)))
        return REF
    return f
def hypothesis_body(h,p,n): return lambda e: push(lambda d: done((NAMEOF[h],p,n,e,d)),goto(phrase(True)))
def hypothesis_becomes(h,p,q,n):
    def f(t):
        if t[1]=='Becomes': return token(lambda _: push(hypothesis_body(h,p,n),goto(phrase(False))))
        return hypothesis_body(h,p,None)(('name_',q,n))
    return f
def hypothesis(h,p):
    def f(t):
        if t[1]=='Plain': return peek(hypothesis_becomes(h,p,t[0],t[2]),hypothesis_body(h,p,None)(('name_',t[0],t[2])))
        return push(hypothesis_body(h,p,None),phrase_rule(False,t))
    return f
def try_inside(p,w):
    def f(t):
        if t[1]=='OpenBrace': return push(own_pair,deeper(alternatives_rule(p,'Bar',w)))
        return push(lambda x: push(lambda xs: done(('try',p,xs)),goto(parts(deduces(x),'Close',(x,)))),phrase_rule(w,t))
    return f
def closure_inside(p):
    def f(t):
        if t[1] in BODY: return push(own_pair,form_rule(None,p,t[1]))
        if t[1]=='Open': return push(own_pair,deeper(goto(closure_inside(t[0]))))
        return REF
    return f
def closure_rule(t):
    if t[1] in BODY: return deeper(push(bare_end,form_rule(None,t[0],t[1])))
    if t[1]=='Open': return deeper(goto(closure_inside(t[0])))
    return REF
# directives
def says(p,s): return ('directive',p,s)
def finish(own,d): return expect('Close',shallower(done(d))) if own else done(d)
def equals(own,r): return r if own else expect('Becomes',r)
def header_var(n):
    def f(t):
        if t[1]=='SortVariable': return push(lambda vs: done((n,vs)),goto(svars((t[2],))))
        return REF
    return f
def header_name(t): return token(header_var(t[2])) if t[1]=='Plain' else REF
def header(t):
    if t[1]=='Plain': return done((t[2],()))
    if t[1]=='Open': return deeper(token(header_name))
    return REF
def constructor_name(t): return push(lambda ss: done((t[2],ss)),goto(sorts('Close',()))) if t[1]=='Plain' else REF
def constructor(t):
    if t[1]=='Plain': return done((t[2],()))
    if t[1]=='Open': return deeper(token(constructor_name))
    return REF
def constructor_list(p,h,cs):
    def f(t):
        if t[1]=='Close': return shallower(done(says(p,('datatype',h[0],h[1],cs))))
        return push(lambda c: goto(constructor_list(p,h,cs+(c,))),constructor(t))
    return f
def after_constructor(p,h,cs):
    def f(t):
        if t[1]=='Bar': return goto(alternatives(p,h,cs))
        return done(says(p,('datatype',h[0],h[1],cs)))
    return f
def alternative(p,h,cs): return push(lambda c: peek(after_constructor(p,h,cs+(c,)),done(says(p,('datatype',h[0],h[1],cs+(c,))))),goto(constructor))
def alternatives(p,h,cs): return lambda t: alternative(p,h,cs) if t[1]=='Bar' else REF
def declared_as(own,p,ns,vs,ss,s): return finish(own,says(p,('declare',ns,vs,ss,s)))
def type_inside(own,p,ns,vs):
    def f(t):
        if t[1]=='To' and own: return expect('Open',deeper(push(lambda ss: push(lambda s: expect('Close',shallower(declared_as(True,p,ns,vs,ss,s))),goto(sort_rule)),goto(sorts('Close',())))))
        if t[1] in WORDS: return when(t[1] in PATH,push(lambda ss: declared_as(own,p,ns,vs,(),('con',t[2],ss)),goto(sorts('Close',()))))
        return REF
    return f
def type_rule(own,p,ns,vs):
    def f(t):
        if t[1]=='Open': return deeper(token(type_inside(own,p,ns,vs)))
        if t[1]=='OpenBracket' and not own: return deeper(push(lambda ss: expect('To',push(lambda s: declared_as(False,p,ns,vs,ss,s),goto(sort_rule))),goto(sorts('CloseBracket',()))))
        return push(lambda s: declared_as(own,p,ns,vs,(),s),sort_rule(t))
    return f
def signature_inside(own,p,ns):
    def f(t):
        if t[1]=='SortVariable': return push(lambda vs: token(type_rule(own,p,ns,vs)),goto(svars((t[2],))))
        if t[1]=='Close': return shallower(token(type_rule(own,p,ns,())))
        return type_inside(own,p,ns,None)(t)
    return f
def signature(own,p,ns):
    def f(t):
        if t[1]=='Open': return deeper(token(signature_inside(own,p,ns)))
        return type_rule(own,p,ns,None)(t)
    return f
def after_declared(p,ns):
    def f(t):
        if t[1]=='Comma': return goto(names(p,ns))
        if t[1]=='Colon': return token(signature(False,p,ns))
        return REF
    return f
def names(p,ns): return lambda t: token(after_declared(p,ns+(t[2],))) if t[1]=='Plain' else REF
def name_list(p,ns):
    def f(t):
        if t[1]=='Plain': return goto(name_list(p,ns+(t[2],)))
        if t[1]=='Close': return shallower(token(signature(True,p,ns)))
        return REF
    return f
def group_first(p): return lambda t: goto(name_list(p,(t[2],))) if t[1]=='Plain' else REF
def group(p):
    def f(t):
        if t[1]=='Plain': return token(signature(True,p,(t[2],)))
        if t[1]=='Open': return deeper(token(group_first(p)))
        return REF
    return f
def fun_name(own,p):
    def f(t):
        if t[1]=='Plain': return push(lambda xs: equals(own,push(lambda x: finish(own,says(p,('define_fun',t[2],xs,x))),goto(phrase(None)))),goto(params(())))
        return REF
    return f
def define_rule(own,p):
    def f(t):
        if t[1]=='Plain': return equals(own,push(lambda x: finish(own,says(p,('define',t[2],x))),goto(phrase(None))))
        if t[1]=='Open': return deeper(token(fun_name(own,p)))
        return REF
    return f
def asserted(own,p,closed,n): return lambda x: finish(own,says(p,('assert',n,closed,x)))
def assert_becomes(p,closed,q,n):
    def f(t):
        if t[1]=='Becomes': return token(lambda _: push(asserted(False,p,closed,n),goto(phrase(False))))
        return asserted(False,p,closed,None)(('name_',q,n))
    return f
def assert_rule(p,closed):
    def f(t):
        if t[1]=='Plain': return peek(assert_becomes(p,closed,t[0],t[2]),asserted(False,p,closed,None)(('name_',t[0],t[2])))
        return push(asserted(False,p,closed,None),phrase_rule(False,t))
    return f
def load_rule(own,p): return lambda t: finish(own,says(p,('load',t[2]))) if t[1]=='Text' else REF
def keyword_rule(own,p,k):
    if k=='Domain': return push(lambda h: finish(own,says(p,('domain',h[0],h[1]))),goto(header))
    if k=='Datatype':
        if own: return push(lambda h: push(lambda c: goto(constructor_list(p,h,(c,))),goto(constructor)),goto(header))
        return push(lambda h: expect('Becomes',alternative(p,h,())),goto(header))
    if k=='Declare': return token(group(p)) if own else goto(names(p,()))
    if k=='Define': return token(define_rule(own,p))
    if k in ('Assert','AssertClosed'):
        closed=k=='AssertClosed'
        if own: return push(asserted(True,p,closed,None),goto(phrase(False)))
        return token(assert_rule(p,closed))
    if k=='Load': return token(load_rule(own,p))
    return REF
def directive_inside(p):
    def f(t):
        if t[1] in DIRS: return keyword_rule(True,p,t[1])
        return push(lambda x: done(says(p,('phrase',x))),inside(p,None)(t))
    return f
def directive(t):
    if t[1] in DIRS: return keyword_rule(False,t[0],t[1])
    if t[1]=='Open': return deeper(token(directive_inside(t[0])))
    p=t[0]
    return push(lambda x: done(says(p,('phrase',x))),phrase_rule(None,t))
# the machine; a stack is None or (k, rest)
def settle(r,l,ks):
    flag=True
    while True:
        tag=r[0]
        if tag=='done':
            if ks is None: return ('on',flag,('whole',r[1]))
            k,ks=ks; r=k(r[1])
        elif tag=='refuse': return ('no',)
        elif tag=='token' or tag=='goto': return ('on',flag,('waits',l,r[1],ks))
        elif tag=='peek': return ('on',flag,('lingers',l,r[1],r[2],ks))
        elif tag=='push': ks=(r[1],ks); r=r[2]
        elif tag=='check': flag=flag and r[1]; r=r[2]
        elif tag=='deeper': l+=1; r=r[1]
        elif tag=='shallower': l-=1; r=r[1]
def taken(t,r,l,ks):
    flag=True
    while True:
        tag=r[0]
        if tag=='done':
            if ks is None: return ('over',flag,r[1])
            k,ks=ks; r=k(r[1])
        elif tag=='refuse': return ('no',)
        elif tag=='token' or tag=='goto':
            o=settle(r[1](t),l,ks)
            return o if o[0]=='no' else (o[0],o[1] and flag,o[2])
        elif tag=='peek': r=r[1](t)
        elif tag=='push': ks=(r[1],ks); r=r[2]
        elif tag=='check': flag=flag and r[1]; r=r[2]
        elif tag=='deeper': l+=1; r=r[1]
        elif tag=='shallower': l-=1; r=r[1]
def step(c,t):
    if c[0]=='whole': return ('over',True,c[1])
    if c[0]=='waits': return settle(c[2](t),c[1],c[3])
    return taken(t,c[2](t),c[1],c[4])
def at_end(c):
    if c[0]=='whole': return ('finished',True,c[1])
    if c[0]=='waits': return ('unfinished',)
    r=c[3]; ks=c[4]; flag=True
    while True:
        tag=r[0]
        if tag=='done':
            if ks is None: return ('finished',flag,r[1])
            k,ks=ks; r=k(r[1])
        elif tag in ('refuse','token','goto'): return ('unfinished',)
        elif tag=='peek': r=r[2]
        elif tag=='push': ks=(r[1],ks); r=r[2]
        elif tag=='check': flag=flag and r[1]; r=r[2]
        else: r=r[1]
def level(c): return 0 if c[0]=='whole' else c[1]
START=('waits',0,directive,None)

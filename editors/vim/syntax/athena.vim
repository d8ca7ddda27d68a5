" Vim syntax file
" Language: Athena scripts (*.ath)
if exists("b:current_syntax")
  finish
endif

" Words may have letters, digits and + - * / < > = & ~ ^ @ $ _ ' ?
syntax iskeyword 36,38,39,42,43,45,47-57,60-90,94,95,97-122,126

syntax match   athenaComment  "#.*$" contains=@Spell
syntax region  athenaString   start=+"+ skip=+\\\\\|\\"+ end=+"+ contains=athenaEscape
syntax match   athenaEscape   +\\\(n\|t\|"\|\\\|x\x\x\)+ contained
syntax match   athenaVariable "?[A-Za-z][^][ \t(){}:;,|!.\"#]*"
syntax match   athenaSortVar  "'[A-Za-z][A-Za-z0-9_]*"
syntax match   athenaCall     "!"
syntax match   athenaMark     ":="

syntax keyword athenaDirective domain datatype declare define assert assert* load module open left-assoc right-assoc
syntax keyword athenaForm lambda method let dlet letrec match dmatch by-induction datatype-cases check try dbegin
syntax keyword athenaForm assume suppose-absurd conclude pick-any pick-witness else list-of some-var some-term some-sent some-list
syntax keyword athenaSymbol   not and or if iff forall exists true false
syntax match   athenaSymbol   +\k\@<!\(=/=\|<==>\|==>\|<==\|=>\|->\)\k\@!+

highlight default link athenaComment   Comment
highlight default link athenaString    String
highlight default link athenaEscape    SpecialChar
highlight default link athenaVariable  Identifier
highlight default link athenaSortVar   Type
highlight default link athenaDirective PreProc
highlight default link athenaForm      Keyword
highlight default link athenaSymbol    Operator
highlight default link athenaCall      Statement
highlight default link athenaMark      Statement

let b:current_syntax = "athena"

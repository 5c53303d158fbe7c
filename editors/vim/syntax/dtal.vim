" Vim syntax file for DTAL, the assembly language (docs/dtal.md).
if exists('b:current_syntax')
  finish
endif

" A line belongs to what its first word names; a first word that names nothing is a fault.
syn match dtalFault /^.\+/
syn region dtalLine matchgroup=dtalKeyword start=/^dtal / end=/$/ oneline contains=dtalNumber
syn region dtalLine matchgroup=dtalKeyword start=/^type / end=/$/ oneline contains=@dtalTypes,dtalKeyword
syn region dtalLine matchgroup=dtalKeyword start=/^fun / end=/$/ oneline contains=@dtalTypes,dtalFunction
syn region dtalLine matchgroup=dtalKeyword start=/^label / end=/$/ oneline contains=@dtalTypes,dtalLabel
syn region dtalLine matchgroup=dtalKeyword start=/^by / end=/$/ oneline contains=@dtalLinear,dtalRule
syn match dtalKeyword /^end$/
syn region dtalLine matchgroup=dtalInstruction end=/$/ oneline contains=dtalPlace,dtalFault,dtalNumber,dtalOperator,dtalComparison
  \ start=/^\%(li\|lb\|mv\|add\|sub\|mul\|div\|mod\|set\|call\|ret\|len\|ld\|st\|new\|tup\|untup\|print\) /
syn region dtalLine matchgroup=dtalInstruction end=/$/ oneline contains=dtalPlace,dtalFault,dtalTarget,dtalComparison,dtalEdge
  \ start=/^\%(br\|bt\|bf\|jmp\) /

syn cluster dtalLinear contains=dtalNumber,dtalIndex,dtalOperator
syn cluster dtalTypes contains=@dtalLinear,dtalType,dtalPlace,dtalFault
syn match dtalNumber /\d\+/ contained
syn match dtalIndex /v\d\+/ contained
syn match dtalOperator /[-+|=]/ contained
syn match dtalType /\<\%(int\|arr\|tup\)(\@=/ contained
syn match dtalType /\<bool\>/ contained
syn match dtalKeyword /\<\%(cell\|tuple\)\>/ contained
syn match dtalRule /\<[hgct]\>/ contained
syn match dtalComparison /\<\%(lt\|le\|eq\|ne\)\>/ contained
syn match dtalFault /\<[rs]\d\+\>/ contained
syn match dtalPlace /\<\%(r\%(\d\|1[0-5]\)\|s\%(\d\|[1-9]\d\|1\d\d\|2[0-3]\d\)\)\>/ contained
syn match dtalFunction /\%(^fun \)\@<=\l\w*/ contained
syn match dtalLabel /\%(^label \)\@<=\d\+/ contained
syn match dtalTarget / \@<=\d\+\%( {\)\@=/ contained
syn match dtalEdge /{.*/ contained contains=@dtalLinear

hi def link dtalKeyword Keyword
hi def link dtalRule Keyword
hi def link dtalInstruction Statement
hi def link dtalComparison Statement
hi def link dtalType Type
hi def link dtalPlace Special
hi def link dtalFunction Function
hi def link dtalLabel Label
hi def link dtalTarget Label
hi def link dtalIndex Identifier
hi def link dtalNumber Number
hi def link dtalOperator Operator
hi def link dtalFault Error

let b:current_syntax = 'dtal'

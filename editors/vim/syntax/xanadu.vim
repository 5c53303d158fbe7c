" Vim syntax file for Xanadu, the source language (docs/language.md).
if exists('b:current_syntax')
  finish
endif

" Where several items could begin at one place, the one that stands last here is taken.
syn match xanaduFault /[^ \t\r]/
syn match xanaduMark /[(){}\[\],;:]/
syn match xanaduOperator /[-+*\/%<>=!|]\|&&/
syn match xanaduNumber /\d\+/
syn match xanaduFault /0\d\+\|\d\{20,}/
syn match xanaduName /\l\w*/
syn match xanaduFunction /\l\w*\ze\s*(/
syn match xanaduFunctionName /\l\w*/ contained
syn match xanaduTypeName /\u\w*/ nextgroup=xanaduLength skipwhite
syn match xanaduComment "//.*$" contains=@Spell

syn keyword xanaduKeyword type var let if else join while with return print len
syn keyword xanaduKeyword fun nextgroup=xanaduFunctionName skipwhite
syn keyword xanaduBoolean true false
syn keyword xanaduType int nextgroup=xanaduExact,xanaduLength skipwhite
syn keyword xanaduType bool nextgroup=xanaduLength skipwhite
syn keyword xanaduType unit nat

" Index variables: in a quantifier, in int(e), and in the length of an array's type. The length behind `new` is an expression.
syn cluster xanaduLinear contains=xanaduIndex,xanaduNumber,xanaduFault,xanaduMark,xanaduOperator,xanaduComment
syn match xanaduIndex /\l\w*/ contained
syn keyword xanaduSort int nat contained
syn region xanaduQuantifier matchgroup=xanaduMark start=/{\ze\s*\l\w*\s*:/ end=/}/ contains=@xanaduLinear,xanaduSort
syn region xanaduExact matchgroup=xanaduMark start=/(/ end=/)/ contained contains=@xanaduLinear
syn region xanaduLength matchgroup=xanaduMark start=/\[/ end=/\]/ contained contains=@xanaduLinear
syn region xanaduNew matchgroup=xanaduKeyword start=/\<new\>/ matchgroup=xanaduMark end=/\[/ contains=xanaduElement,xanaduElementName,xanaduComment
syn keyword xanaduElement int bool contained
syn match xanaduElementName /\u\w*/ contained

syn sync fromstart

hi def link xanaduKeyword Keyword
hi def link xanaduBoolean Boolean
hi def link xanaduType Type
hi def link xanaduSort Type
hi def link xanaduElement Type
hi def link xanaduTypeName Structure
hi def link xanaduElementName Structure
hi def link xanaduFunction Function
hi def link xanaduFunctionName Function
hi def link xanaduIndex Identifier
hi def link xanaduNumber Number
hi def link xanaduOperator Operator
hi def link xanaduComment Comment
hi def link xanaduFault Error

let b:current_syntax = 'xanadu'

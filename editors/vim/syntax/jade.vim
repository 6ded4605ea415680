" Jade: words, numbers, comments, brackets and what no program has.
" editors/check compares the words with those of the language.
if exists("b:current_syntax")
  finish
endif

syntax case match

" a word has letters, digits and _
setlocal iskeyword=@,48-57,_
setlocal commentstring=//\ %s
setlocal matchpairs=(:),{:},[:]

syntax keyword jadeItem input object objects main
syntax keyword jadeKind int bool
syntax keyword jadeTruth true false
syntax keyword jadeBranch if else
syntax keyword jadeLoop for in
syntax keyword jadeTask withonly do with cont
syntax keyword jadeRight rd wr rd_wr df_rd df_wr df_rd_wr cm no_rd no_wr no_rd_wr
syntax keyword jadeProc proc

" a name before a bracket: that of a procedure, or of a call
syntax match jadeCall "\<\h\w*\>\ze\_s*("

syntax match jadeNumber "\<\(0\|[1-9]\d*\)\>"
" a number has no needless zero, and no letter follows it
syntax match jadeWrong "\<\(0\d\+\w*\|\d\+\h\w*\)\>"
syntax match jadeOperator "==\|!=\|<=\|>=\|&&\|||\|\.\.\|[-+*/%<>!=:]"
syntax match jadeBracket "[][(){}]"

" after the operators, so that // is no division
syntax match jadeComment "//.*$" contains=@Spell

highlight default link jadeItem Structure
highlight default link jadeKind Type
highlight default link jadeTruth Boolean
highlight default link jadeBranch Conditional
highlight default link jadeLoop Repeat
highlight default link jadeTask Statement
highlight default link jadeRight StorageClass
highlight default link jadeProc Define
highlight default link jadeCall Function
highlight default link jadeComment Comment
highlight default link jadeNumber Number
highlight default link jadeWrong Error
highlight default link jadeOperator Operator
highlight default link jadeBracket Delimiter

let b:current_syntax = "jade"

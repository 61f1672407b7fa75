" Vim syntax of documents for wpds: systems (wpds 1) and Boolean programs (bool 1).
" Copy it to ~/.vim/syntax/wpds.vim, and: autocmd BufRead,BufNewFile *.wpds set filetype=wpds
if exists("b:current_syntax")
  finish
endif

syn match wpdsComment /^\s*#.*/
syn match wpdsHeader /^\s*\(wpds\|bool\)\s\+1\s*$/
syn match wpdsLine /^\s*\(weights\|controls\|symbols\|facts\|variables\|rule\|query\|global\|proc\|local\)\>/
syn keyword wpdsWeights reach cost genkill copy relation contained
syn match wpdsWeightsLine /^\s*weights\s.*/ contains=wpdsLine,wpdsWeights,wpdsNumber
syn keyword wpdsStatement if else end while goto assert assume call skip return returns fails choose restore move plain tab2 tab3
syn keyword wpdsConstant one none undef
syn match wpdsOperator /->\|=>\|:=\|[{}*.!&|]/
syn match wpdsLabel /^\s*\h\w*\ze:\(\s\|$\)/
syn match wpdsNumber /\<\d\+\>/

hi def link wpdsComment Comment
hi def link wpdsHeader PreProc
hi def link wpdsLine Keyword
hi def link wpdsWeights Type
hi def link wpdsStatement Statement
hi def link wpdsConstant Constant
hi def link wpdsOperator Operator
hi def link wpdsLabel Label
hi def link wpdsNumber Number

let b:current_syntax = "wpds"

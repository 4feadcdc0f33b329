" Colours of the job language of swan.
" Copy this file to ~/.vim/syntax/swan.vim, and the line below to ~/.vim/ftdetect/swan.vim:
"   autocmd BufRead,BufNewFile *.swan setfiletype swan
" A word is coloured where it has its meaning: at the beginning of a line, unless `=` follows, or behind `=`.
" No name is reserved.
if exists("b:current_syntax")
  finish
endif
syntax case match

syntax match swanHeader /\%^\s*swan\s\+[12]\s*$/
syntax match swanNote /^\s*#.*$/
syntax region swanLiteral start=/"/ skip=/\\./ end=/"/ end=/$/ contains=swanEscape
syntax match swanEscape /\\\([\\"nt]\|x\x\x\)/ contained
syntax match swanNumber /\s\zs\(0\|-\?[1-9]\d*\)\ze\(\s\|$\)/

syntax match swanTask /^\s*\(task\|do\|end\)\>\(\s\+=\)\@!/
syntax match swanTop /^\s*\(input\|output\)\>\(\s\+=\)\@!/
syntax match swanDeclaration /^\s*\(param\|inout\|in\|out\|pushpop\|var\|queue\|object\)\>\(\s\+=\)\@!/
syntax match swanStatement /^\s*\(read\|write\|push\|pop\|empty\|spawn\|sync\|fuel\|caught\|fail\)\>\(\s\+=\)\@!/
syntax match swanDeclaration /^\s*\(push\|pop\)\ze\s\+\h\w*\s\+\(int\|bytes\)\s*$/
syntax match swanBlock /^\s*\(if\|else\|while\)\>\(\s\+=\)\@!/
syntax match swanOperation /\s=\s\+\zs\(set\|add\|sub\|mul\|div\|rem\|lt\|le\|eq\|and\|or\|not\|len\|at\|slice\|cat\|find\|num\|text\)\>/
syntax match swanKind /\(^\s*\(param\|inout\|in\|out\|pushpop\|push\|pop\|var\|queue\|object\|output\)\s\+\h\w*\s\+\)\@<=\(int\|bytes\)\ze\s*$/

highlight default link swanHeader PreProc
highlight default link swanNote Comment
highlight default link swanLiteral String
highlight default link swanEscape SpecialChar
highlight default link swanNumber Number
highlight default link swanTask Structure
highlight default link swanTop StorageClass
highlight default link swanDeclaration StorageClass
highlight default link swanStatement Statement
highlight default link swanBlock Conditional
highlight default link swanOperation Operator
highlight default link swanKind Type

let b:current_syntax = "swan"

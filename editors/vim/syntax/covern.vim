" Vim syntax file
" Language: Covern, programs of several threads over shared variables

if exists("b:current_syntax")
  finish
endif

" declarations
syntax keyword covernDeclaration version var lock thread
syntax keyword covernMode nowrite hide inv assume guarantee when
syntax keyword covernClass low high

" statements
syntax keyword covernStatement skip unlock note output
syntax keyword covernBranch if else
syntax keyword covernLoop while
syntax keyword covernState join as retype by

" certificates
syntax keyword covernCertificate auto hyp calc clash and left right use cases split have absurd not contra refl fwd rev axiom ring range

" words that no rule has
syntax keyword covernReserved level seen

syntax match covernNumber "\<\d\+\>"
syntax match covernHole "\<_\>"
syntax match covernOperator "[-+*&|^!]\|==\|!=\|<=\|<\|&&\|||\|:="
syntax match covernComment "//.*$" contains=@Spell

highlight default link covernDeclaration Structure
highlight default link covernMode StorageClass
highlight default link covernClass Type
highlight default link covernStatement Statement
highlight default link covernBranch Conditional
highlight default link covernLoop Repeat
highlight default link covernState PreProc
highlight default link covernCertificate Function
highlight default link covernReserved Error
highlight default link covernNumber Number
highlight default link covernHole Special
highlight default link covernOperator Operator
highlight default link covernComment Comment

let b:current_syntax = "covern"

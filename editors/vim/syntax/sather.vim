" Syntax of Sather, in the profile of docs/LANGUAGE.md. The words are those of the lexer, which conformance/editors.py checks.
if exists('b:current_syntax')
  finish
endif

syntax case match
" A word directly before ! is the name of an iter.
syntax iskeyword @,48-57,_,!

syntax keyword satherConditional if then elsif else case typecase when
syntax keyword satherRepeat loop yield quit
syntax keyword satherStatement is end return assert
syntax keyword satherException protect raise
syntax keyword satherStructure class attr shared const include stub builtin
syntax keyword satherModifier abstract immutable partial private readonly in out inout once
syntax keyword satherOperator and or new bind
syntax keyword satherConstant true false void
syntax keyword satherSelf self exception
syntax keyword satherTypeWord ITER ROUT SAME
syntax keyword satherContract pre post initial result invariant
" Those of parallel Sather are refused wherever they stand.
syntax keyword satherRefused external spread fork par parloop lock unlock guard cohort sync near far

" Of those that begin at one place the last is taken.
syntax match satherName "\a\w*"
syntax match satherClass "\u[A-Z0-9_]*\%([a-z!]\)\@!"
syntax match satherAbstract "\$\u[A-Z0-9_]*"
syntax match satherIter "\a\w*!"
syntax match satherLeave "\%(while\|until\|break\)!"

syntax match satherNumber "0x\x[0-9A-Fa-f_]*\|0o\o[0-7_]*\|0b[01][01_]*\|\d[0-9_]*"
syntax match satherSign "::=\|:=\|/=\|<=\|>=\|->\|[-=<>+*/%^~#|]"
syntax match satherBadEscape contained "\\."
syntax match satherEscape contained "\\\%([abfnrtv\\'"]\|\o\{1,3}\)"
syntax region satherCharacter start=+'+ skip=+\\.+ end=+'+ end=+$+ contains=satherBadEscape,satherEscape
syntax region satherString start=+"+ skip=+\\.+ end=+"+ end=+$+ contains=satherBadEscape,satherEscape
syntax match satherComment "--.*" contains=@Spell
syntax sync minlines=1

highlight default link satherConditional Conditional
highlight default link satherRepeat Repeat
highlight default link satherStatement Statement
highlight default link satherException Exception
highlight default link satherStructure Structure
highlight default link satherModifier StorageClass
highlight default link satherOperator Operator
highlight default link satherConstant Constant
highlight default link satherSelf Identifier
highlight default link satherTypeWord Type
highlight default link satherContract PreProc
highlight default link satherRefused Error
highlight default link satherClass Type
highlight default link satherAbstract Type
highlight default link satherIter Function
highlight default link satherLeave Repeat
highlight default link satherNumber Number
highlight default link satherSign Operator
highlight default link satherCharacter Character
highlight default link satherString String
highlight default link satherEscape SpecialChar
highlight default link satherBadEscape Error
highlight default link satherComment Comment

let b:current_syntax = 'sather'

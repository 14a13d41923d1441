" Vim syntax for models: the words and the signs of the language, and nothing else. Not proved.
if exists("b:current_syntax")
  finish
endif
syntax case match

syntax match altaricaName "\<[A-Za-z_][A-Za-z0-9_]*\>"
syntax match altaricaNumber "\<[0-9]\+\>"
syntax match altaricaReal "\<[0-9]\+\.[0-9]\+\([eE][+-]\?[0-9]\+\)\?\>"
syntax match altaricaReal "\<[0-9]\+[eE][+-]\?[0-9]\+\>"
syntax match altaricaSign "[{}\[\](),;:.=<>+*!?&-]\|:=\|==\|!=\|<=\|>=\|->\|:=:"
" A sign of the language that no model may have where it is: there is no division.
syntax match altaricaDivision "/"

syntax keyword altaricaUnit block class end extends clones embeds as owner main domain
syntax keyword altaricaMember event observer parameter hide init reset
syntax keyword altaricaSection transition assertion
syntax keyword altaricaType Boolean Integer Real
syntax keyword altaricaChoice if then else switch case default skip
syntax keyword altaricaOperator and or not min max count
syntax keyword altaricaTruth true false

syntax region altaricaComment start="/\*" end="\*/"
syntax match altaricaComment "//.*$"

highlight default link altaricaComment Comment
highlight default link altaricaName Identifier
highlight default link altaricaNumber Number
highlight default link altaricaReal Float
highlight default link altaricaSign Delimiter
highlight default link altaricaDivision Error
highlight default link altaricaUnit Structure
highlight default link altaricaMember Statement
highlight default link altaricaSection PreProc
highlight default link altaricaType Type
highlight default link altaricaChoice Conditional
highlight default link altaricaOperator Operator
highlight default link altaricaTruth Boolean

let b:current_syntax = "altarica"

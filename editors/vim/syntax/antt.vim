" Definitions and proofs
if exists("b:current_syntax")
    finish
endif
syntax keyword anttKeyword use pub mod abbrev unfoldable unfolding record data where let in if then else module ruleset infixl infixr infix as
syntax keyword anttTactic refl sym ap subst rw cc omega grind absurd arith
syntax keyword anttType Type Bool List Option Result Unit
syntax keyword anttConstant true false tt
syntax match anttNumber "\<\d\+\>"
syntax match anttOperator "[≡≢×⊎→↔∀∃λ∷⊥≤≥·∙]\|::\|++"
syntax match anttDefined "^\s*\(\(pub\|abbrev\|unfoldable\)\s\+\)*\zs[^ ({:]\+\ze\s*:\s"
syntax match anttComment "--.*$" contains=@Spell
highlight default link anttKeyword Keyword
highlight default link anttTactic Function
highlight default link anttType Type
highlight default link anttConstant Constant
highlight default link anttNumber Number
highlight default link anttOperator Operator
highlight default link anttDefined Identifier
highlight default link anttComment Comment
let b:current_syntax = "antt"

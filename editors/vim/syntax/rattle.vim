" Rattle: Rust with contracts
if exists("b:current_syntax")
    finish
endif
runtime! syntax/rust.vim
unlet! b:current_syntax
syntax keyword rattleClause ensures requires ghost invariant decreases
syntax match rattleLogic "[≡≢×⊎→↔∀∃λ∷⊥≤≥]"
syntax match rattleMoment "\.\(old\|new\|now\)\>"
highlight default link rattleClause Keyword
highlight default link rattleLogic Operator
highlight default link rattleMoment Special
let b:current_syntax = "rattle"

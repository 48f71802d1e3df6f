" Rust with contracts.
if exists("b:current_syntax") | finish | endif
runtime! syntax/rust.vim
unlet! b:current_syntax
syntax keyword rattleContract requires ensures ghost decreases invariant
syntax match rattleOperator "[→×⊎≡≢≤≥∷↔λ¬∀∧∨]"
highlight default link rattleContract PreProc
highlight default link rattleOperator Operator
let b:current_syntax = "rattle"

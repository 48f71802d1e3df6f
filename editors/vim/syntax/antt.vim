" The language of definitions and proofs.
if exists("b:current_syntax") | finish | endif
syntax keyword anttKeyword data record deriving module where use mod pub package open as unfoldable abbrev axiom unfold unfolding ruleset mutual infix infixl infixr elim let in do ghost
syntax keyword anttTactic rw simp search grw cc omega grind assumption first_of subst
syntax keyword anttType Type ℕ Bool String
syntax match anttSignature "^\(pub \)\?\(abbrev \)\?\S\+\ze :"
syntax match anttNumber "\<\d[0-9_]*\>\|\<0x[0-9a-f_]\+\>"
syntax match anttOperator "[→×⊎≡≢≤≥∷↔λ¬∀∧∨]"
syntax region anttText start=+"+ skip=+\\"+ end=+"+
syntax match anttComment "-- .*$"
syntax region anttComment start="{-" end="-}"
highlight default link anttKeyword Keyword
highlight default link anttTactic Function
highlight default link anttType Type
highlight default link anttSignature Identifier
highlight default link anttNumber Number
highlight default link anttOperator Operator
highlight default link anttText String
highlight default link anttComment Comment
let b:current_syntax = "antt"

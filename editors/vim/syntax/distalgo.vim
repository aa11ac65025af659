" Vim syntax file for DistAlgo programs (.da), after docs/LANGUAGE.md 3.
if exists("b:current_syntax")
  finish
endif

syntax case match

" Reserved words, by what they are for.
syntax keyword distalgoDeclaration channel class def extends main message new process receive run setup var
syntax keyword distalgoChannel fifo reliable unordered unreliable
syntax keyword distalgoType bool int proc set str
syntax keyword distalgoStatement add await del output pass send timeout to
syntax keyword distalgoConditional elif else if
syntax keyword distalgoRepeat for while
syntax keyword distalgoOperatorWord and in not or
syntax keyword distalgoBoolean true false
syntax keyword distalgoBuiltin logical_time range self received sent
syntax keyword distalgoQuery at count each from has max min some sum

" The single underscore, which matches everything in a pattern.
syntax match distalgoWild "\<_\>"

" Integers, texts on one line without escapes, comments.
syntax match distalgoNumber "\<\(0\|[1-9][0-9]*\)\>"
syntax match distalgoString "'[ -&(-~]*'"
syntax match distalgoComment "#.*$" contains=distalgoTodo
syntax keyword distalgoTodo contained TODO FIXME

" Symbols, the longest first. A label is a name after two dashes.
syntax match distalgoSymbol "//\|==\|!=\|<=\|>=\|[-+*%=<>|]"
syntax match distalgoDelimiter "[(){}\[\],:.]"
syntax match distalgoLabel "--\s*\h\w*"

highlight default link distalgoDeclaration Keyword
highlight default link distalgoChannel StorageClass
highlight default link distalgoType Type
highlight default link distalgoStatement Statement
highlight default link distalgoConditional Conditional
highlight default link distalgoRepeat Repeat
highlight default link distalgoOperatorWord Operator
highlight default link distalgoBoolean Boolean
highlight default link distalgoBuiltin Function
highlight default link distalgoQuery Special
highlight default link distalgoWild Special
highlight default link distalgoNumber Number
highlight default link distalgoString String
highlight default link distalgoComment Comment
highlight default link distalgoTodo Todo
highlight default link distalgoSymbol Operator
highlight default link distalgoDelimiter Delimiter
highlight default link distalgoLabel Label

let b:current_syntax = "distalgo"

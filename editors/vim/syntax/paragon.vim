" Words of Paragon sources.
if exists("b:current_syntax")
  finish
endif

syntax keyword paragonDeclaration actor lock policy class extends input output static
syntax keyword paragonStatement if else while try catch return break continue throw throws
syntax keyword paragonLock open close when
syntax keyword paragonType int boolean void Exception notnull
syntax keyword paragonValue new this null true false
syntax keyword paragonPolicyWord bottom top
syntax match paragonPolicy "?\s*{[^}]*}" contains=paragonPolicyWord
syntax match paragonPolicy "?\s*\h\w*" contains=paragonPolicyWord
syntax match paragonNumber "\<\d\+\>"
syntax match paragonComment "//.*$"
syntax region paragonComment start="/\*" end="\*/"

highlight default link paragonDeclaration Keyword
highlight default link paragonStatement Statement
highlight default link paragonLock Special
highlight default link paragonType Type
highlight default link paragonValue Constant
highlight default link paragonPolicyWord Constant
highlight default link paragonPolicy PreProc
highlight default link paragonNumber Number
highlight default link paragonComment Comment

let b:current_syntax = "paragon"

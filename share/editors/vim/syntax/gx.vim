" Vim syntax of the scripts of gx.
"
" No word of the language is reserved: where it stands decides what it is. So a statement is a word
" at the start of a line or behind a ';', and a function stands before a '('.

if exists("b:current_syntax")
  finish
endif
let s:cpo_save = &cpo
set cpo&vim
syntax case match

" Of two matches at one place Vim takes the later one, so the least telling comes first.
syntax match gxName "\<\a\w*\>"
syntax match gxNumber "\<\d\+\>"
syntax match gxOperator "==\|!=\|<=\|>=\|[<>=+*/%-]"
syntax match gxPunctuation "[(),;:.]"
syntax match gxOther "\<\%(from\|oriented\|default\|where\|by\|vertices\|edges\|to\|when\|merge\|rounds\|active\|initial\|program\)\>"
syntax match gxConstant "\<\%(true\|false\|matched\)\>"
syntax match gxFunction "\<\%(abs\|if\|min\|max\|len\|concat\|text\|ids\|add\|has\)\ze\s*("
syntax match gxWordOperator "\<\%(and\|or\|not\)\>"
syntax match gxKind "\%(:\s*\)\@<=\%(int\|text\|bool\|ids\|sum\|count\|min\|max\|all\|any\|bag\)\ze\s*[,)]"
syntax match gxColumn "\<\a\w*\ze\s*:"
syntax match gxSide "\<\%(v\|o\|m\|src\|dst\|edge\)\ze\s*\."
syntax match gxMember "\%(\.\s*\)\@<=\a\w*"
syntax match gxStatement "\%(^\|;\)\@<=\s*\%(vertices\|edges\|edgelist\|graph\|fromedges\|reverse\|mask\|subgraph\|groupedges\|partition\|mapvertices\|mapedges\|maptriplets\|joinvertices\|outerjoin\|aggregate\|indegrees\|outdegrees\|degrees\|neighbours\|pregel\|filter\|mapvalues\|minus\|diff\|innerjoin\|leftjoin\)\ze\s\+\a\w*\s*\%(=\|from\>\)"
syntax match gxStatement "\%(^\|;\)\@<=\s*\%(print\|count\)\s\+\%(table\|vertices\|edges\|triplets\)\>"
syntax match gxOpenText /"[^"]*$/
syntax match gxText /"\%([^"\\]\|\\["\\ntr]\)*"/
syntax match gxComment "#.*$"

highlight default link gxStatement Statement
highlight default link gxOther Keyword
highlight default link gxKind Type
highlight default link gxFunction Function
highlight default link gxWordOperator Operator
highlight default link gxOperator Operator
highlight default link gxConstant Boolean
highlight default link gxNumber Number
highlight default link gxText String
highlight default link gxOpenText Error
highlight default link gxComment Comment
highlight default link gxSide Special
highlight default link gxMember Identifier
highlight default link gxColumn Identifier

let b:current_syntax = "gx"
let &cpo = s:cpo_save
unlet s:cpo_save

" Vim syntax file for scripts of ongq (docs/LANGUAGE.md).
if exists('b:current_syntax')
  finish
endif

" Upper and lower case are one.
syntax case ignore

" Words that begin a statement, and those that stand in one.
syntax keyword ongqStatement create insert delete update drop tables keep live print valid explain save open import
syntax keyword ongqKeyword as exists from into join of on select set table to union except intersect values where
syntax keyword ongqOperator and or not
syntax keyword ongqPredicate before meets overlaps starts finishes during equals
syntax keyword ongqFunction least greatest common start end empty contains
syntax keyword ongqType int text

" A number takes all its digits, with the sign that touches them.
syntax match ongqNumber /-\=\<\d\+/
syntax match ongqOperator /<>\|<=\|>=\|[=<>*]/
syntax match ongqSeparator /[(),;.]/

" A quote in a text is doubled.
syntax region ongqText start=/'/ skip=/''/ end=/'/
syntax match ongqComment /--.*$/ contains=@Spell

" In the text of a day or a period what is no fixed day is told apart. Lines may end before it, and comments stand there.
syntax keyword ongqType date period ongoing nextgroup=ongqDay,ongqDayComment skipwhite skipempty
syntax match ongqDayComment /--.*$/ contained contains=@Spell nextgroup=ongqDay,ongqDayComment skipwhite skipempty
syntax region ongqDay start=/'/ skip=/''/ end=/'/ contained contains=ongqNow
syntax match ongqNow /now\|infinity\|+/ contained

" A window that begins in the midst of a long script looks for them so many lines above.
syntax sync minlines=100

highlight default link ongqStatement Statement
highlight default link ongqKeyword Keyword
highlight default link ongqOperator Operator
highlight default link ongqPredicate Operator
highlight default link ongqFunction Function
highlight default link ongqType Type
highlight default link ongqNumber Number
highlight default link ongqSeparator Delimiter
highlight default link ongqText String
highlight default link ongqDay String
highlight default link ongqNow Special
highlight default link ongqComment Comment
highlight default link ongqDayComment ongqComment

let b:current_syntax = 'ongq'
